/* rimesatchel picture: a reading over time, channel under channel, with what is missing and what is damaged. */
#include <argp.h>
#include <cairo.h>
#include <err.h>
#include <errno.h>
#include <math.h>
#include <stdio.h>
#include <stdlib.h>
#include <string.h>
#include <sysexits.h>

#include "bins.h"
#include "options.h"
#include "place.h"
#include "slips.h"
#include "stretches.h"

enum { WIDTH = 1600, LEFT = 60, RIGHT = 30, PLOT = WIDTH - LEFT - RIGHT };
enum { TOP = 80, BOTTOM = 50, STRIP = 12, BETWEEN = 14 };

struct colour {
    double red, green, blue; /* 0 to 255 */
};
/* told apart by those who see few colours too */
static const struct colour ink = {38, 38, 38}, faint = {209, 209, 209}, sound_colour = {0, 114, 178},
                           missing_colour = {214, 51, 0}, damaged_colour = {242, 178, 0};

struct picture {
    const char *in_name, *out_name;
    bool force, quiet, no_slips;
    struct reading reading;
    struct frequency frequency;
    struct bins bins;
    struct output out;
    struct stretches stretches;
    uint64_t damaged, damaged_places;
    unsigned lane; /* height of a channel */
    unsigned height;
    cairo_t *cairo;
};

static const struct argp_option options[] = {
    {"rate", 'r', "HZ", 0, "sampling frequency, whatever channel status says; without both it is 48000", 0},
    {"force", 'F', NULL, 0, "write over OUT.png if it is there", 0},
    {"no-slips", OPTION_NO_SLIPS, NULL, 0, "put in nothing for cells that only second numbers tell of", 0},
    {"quiet", 'q', NULL, 0, "no bar", 0},
    {0},
};

static error_t parse(int key, char *word, struct argp_state *state) {
    struct picture *picture = state->input;
    switch (key) {
    case 'r': picture->frequency.asked = option_rate(state, word); break;
    case 'F': picture->force = true; break;
    case OPTION_NO_SLIPS: picture->no_slips = true; break;
    case 'q': picture->quiet = true; break;
    default: return option_pair(state, key, word, &picture->in_name, &picture->out_name);
    }
    return 0;
}

static void use(cairo_t *cairo, struct colour colour, double opaque) {
    cairo_set_source_rgba(cairo, colour.red / 255, colour.green / 255, colour.blue / 255, opaque);
}

static double text(cairo_t *cairo, double x, double y, const char *words) {
    cairo_move_to(cairo, x, y);
    cairo_show_text(cairo, words);
    cairo_text_extents_t extents;
    cairo_text_extents(cairo, words, &extents);
    return x + extents.x_advance;
}

static void box(cairo_t *cairo, double x, double y, double width, double height) {
    cairo_rectangle(cairo, x, y, width, height);
    cairo_fill(cairo);
}

/* 1:02:03, 2:03, or seconds with as many places as a step asks for */
static void say_time(char *to, size_t room, double seconds, double step) {
    unsigned long whole = (unsigned long)(seconds + 1e-9);
    if (step < 1) {
        int places = step < 0.000999 ? 5 : step < 0.00999 ? 3 : step < 0.0999 ? 2 : 1;
        snprintf(to, room, "%.*f s", places, seconds);
    } else if (whole >= 3600) snprintf(to, room, "%lu:%02lu:%02lu", whole / 3600, whole / 60 % 60, whole % 60);
    else snprintf(to, room, "%lu:%02lu", whole / 60, whole % 60);
}

static double length_of(const struct picture *picture) {
    return (double)picture->bins.times / picture->frequency.rate;
}

/* The steps of a time line of at most twelve. */
static double step_of(double seconds) {
    static const double steps[] = {0.00002, 0.00005, 0.0001, 0.0002, 0.0005, 0.001, 0.002, 0.005, 0.01, 0.02, 0.05,
                                   0.1,     0.2,     0.5,    1,      2,      5,     10,    15,    30,   60,   120,
                                   300,     600,     900,    1800,   3600,   7200,  18000, 36000, 86400};
    for (size_t at = 0; at < sizeof steps / sizeof *steps; at++)
        if (seconds <= 12 * steps[at]) return steps[at];
    return 86400 * ceil(seconds / 86400 / 12);
}

static void draw_times(const struct picture *picture) {
    cairo_t *cairo = picture->cairo;
    double seconds = length_of(picture), step = step_of(seconds), bottom = picture->height - BOTTOM + 4;
    if (seconds <= 0) return;
    for (unsigned tick = 0; tick * step <= seconds; tick++) {
        double x = LEFT + floor(tick * step / seconds * PLOT) + 0.5;
        use(cairo, faint, 1);
        cairo_move_to(cairo, x, TOP);
        cairo_line_to(cairo, x, bottom);
        cairo_stroke(cairo);
        char words[40];
        say_time(words, sizeof words, tick * step, step);
        cairo_text_extents_t extents;
        cairo_text_extents(cairo, words, &extents);
        use(cairo, ink, 1);
        text(cairo, fmin(x - extents.x_advance / 2, WIDTH - extents.x_advance - 2), bottom + 18, words);
    }
}

/* The colour of what isn't sound: across the sound, and in a strip under it, where it hides nothing. */
static void draw_flag(const struct picture *picture, double x, double top, struct colour colour) {
    use(picture->cairo, colour, 0.55);
    box(picture->cairo, x, top, 1, picture->lane);
    use(picture->cairo, colour, 1);
    box(picture->cairo, x - 1, top + picture->lane + 1, 3, STRIP - 2);
}

static void draw_channel(const struct picture *picture, unsigned channel) {
    cairo_t *cairo = picture->cairo;
    double top = TOP + (double)channel * (picture->lane + STRIP + BETWEEN), middle = top + picture->lane / 2.0;
    char words[20];
    snprintf(words, sizeof words, "%u", channel + 1);
    use(cairo, ink, 1);
    text(cairo, LEFT - 30, middle + 5, words);
    use(cairo, faint, 0.35);
    box(cairo, LEFT, top, PLOT, picture->lane);
    box(cairo, LEFT, top + picture->lane + 1, PLOT, STRIP - 2);
    for (unsigned pass = 0; pass < 3; pass++)
        for (unsigned at = 0; at < PLOT; at++) {
            struct bin bin = bins_between(&picture->bins, channel, (double)at / PLOT, (double)(at + 1) / PLOT);
            double x = LEFT + at, up = picture->lane / 2.0 / 2147483648.0;
            if (pass == 0 && bin.sound) {
                use(cairo, sound_colour, 1);
                box(cairo, x, middle - bin.high * up - 0.5, 1, ((double)bin.high - bin.low) * up + 1);
            }
            if (pass == 1 && bin.damaged) draw_flag(picture, x, top, damaged_colour);
            if (pass == 2 && bin.missing) draw_flag(picture, x, top, missing_colour);
        }
}

/* Whether a file's name is text that can be drawn: a name may be any octets. */
static bool is_text(const char *name) {
    cairo_surface_t *surface = cairo_image_surface_create(CAIRO_FORMAT_A8, 1, 1);
    cairo_t *cairo = cairo_create(surface);
    cairo_show_text(cairo, name);
    bool good = cairo_status(cairo) == CAIRO_STATUS_SUCCESS;
    cairo_destroy(cairo);
    cairo_surface_destroy(surface);
    return good && strlen(name) <= 200;
}

static double draw_entry(cairo_t *cairo, double x, struct colour colour, const char *words) {
    use(cairo, colour, 1);
    box(cairo, x, 46, 14, 14);
    use(cairo, ink, 1);
    return text(cairo, x + 20, 58, words) + 30;
}

static void draw_head(const struct picture *picture) {
    const struct reading *reading = &picture->reading;
    cairo_t *cairo = picture->cairo;
    const char *slash = strrchr(reading->name, '/'), *name = slash == NULL ? reading->name : slash + 1;
    char words[400], length[40], rate[FREQUENCY_WORDS];
    say_time(length, sizeof length, length_of(picture), length_of(picture) < 60 ? 0.001 : 1);
    snprintf(words, sizeof words, "%s: format %02X hex, %u channel%s, %s at %s", is_text(name) ? name : "a log",
             reading->header[RIME_HEADER_FORMAT], reading->channels, plural(reading->channels), length,
             frequency_words(&picture->frequency, rate));
    cairo_set_font_size(cairo, 18);
    use(cairo, ink, 1);
    text(cairo, LEFT, 28, words);
    cairo_set_font_size(cairo, 14);
    double x = draw_entry(cairo, LEFT, sound_colour, "sound");
    unsigned long long missing = reading->missing + reading->slips.cells, gaps = reading->gaps + reading->slips.places;
    snprintf(words, sizeof words, "missing: %llu cell%s in %llu place%s, %.3f s", missing, plural(missing), gaps, plural(gaps),
             (double)(missing * reading->times) / picture->frequency.rate);
    x = draw_entry(cairo, x, missing_colour, words);
    snprintf(words, sizeof words, "damaged: %llu sample%s in %llu place%s", (unsigned long long)picture->damaged,
             plural(picture->damaged), (unsigned long long)picture->damaged_places, plural(picture->damaged_places));
    x = draw_entry(cairo, x, damaged_colour, words);
    snprintf(words, sizeof words, "%llu cell%s refused%s", (unsigned long long)reading->refused,
             plural(reading->refused), reading->refusal != RIME_DONE ? "; the log is broken at its end" : "");
    text(cairo, x, 58, words);
}

static cairo_status_t write_some(void *user, const unsigned char *octets, unsigned count) {
    return output_write(user, octets, count) ? CAIRO_STATUS_SUCCESS : CAIRO_STATUS_WRITE_ERROR;
}

static int draw(struct picture *picture) {
    unsigned channels = picture->reading.channels;
    picture->lane = channels <= 4 ? 160 : channels <= 12 ? 80 : 40;
    picture->height = TOP + channels * (picture->lane + STRIP + BETWEEN) + BOTTOM;
    cairo_surface_t *surface = cairo_image_surface_create(CAIRO_FORMAT_RGB24, WIDTH, (int)picture->height);
    cairo_t *cairo = picture->cairo = cairo_create(surface);
    cairo_set_source_rgb(cairo, 1, 1, 1);
    cairo_paint(cairo);
    cairo_select_font_face(cairo, "sans-serif", CAIRO_FONT_SLANT_NORMAL, CAIRO_FONT_WEIGHT_NORMAL);
    cairo_set_line_width(cairo, 1);
    draw_head(picture);
    draw_times(picture);
    for (unsigned channel = 0; channel < channels; channel++) draw_channel(picture, channel);
    cairo_status_t drawn = cairo_status(cairo);
    if (drawn == CAIRO_STATUS_SUCCESS) drawn = cairo_surface_write_to_png_stream(surface, write_some, &picture->out);
    cairo_destroy(cairo);
    cairo_surface_destroy(surface);
    if (drawn != CAIRO_STATUS_SUCCESS && picture->out.error == 0)
        return say_unfit(picture->out_name, cairo_status_to_string(drawn));
    return output_keep(&picture->out);
}

static void count_stretch(const struct stretch *stretch, void *user) {
    struct picture *picture = user;
    picture->damaged_places += stretch->mark == RIME_MARK_DOUBTFUL;
}

static bool take(const struct handed *handed, void *user) {
    struct picture *picture = user;
    const struct reading *reading = &picture->reading;
    bins_take(&picture->bins, reading->format.sample_bits, handed);
    picture->damaged += stretches_take(&picture->stretches, reading->channels, handed, count_stretch, picture);
    return true;
}

static int picture_log(struct picture *picture) {
    struct reading *reading = &picture->reading;
    if (!bins_open(&picture->bins, reading->channels)) err(STATUS_FILE, "%s", picture->in_name);
    int status = output_open(&picture->out, picture->out_name, picture->force);
    if (status != STATUS_WELL) return status;
    frequency_find(&picture->frequency, reading);
    enum step step = frequency_walk(&picture->frequency, take, picture);
    stretches_end(&picture->stretches, count_stretch, picture);
    progress_end();
    if (step == STEP_FAILED) return STATUS_FILE;
    slips_say(&reading->slips, reading->name);
    status = draw(picture);
    return status == STATUS_WELL && step == STEP_BROKEN ? reading_broken(reading) : status;
}

int desk_picture(int argc, char **argv) {
    static struct picture picture;
    static const struct argp argp = {
        .options = options,
        .parser = parse,
        .args_doc = "IN.log OUT.png",
        .doc = "Draws a reading over time, with what is missing and damaged. - is standard input, or standard output.",
    };
    argp_parse(&argp, argc, argv, 0, NULL, &picture);
    place_apart(picture.in_name, &picture.out_name, 1);
    if (!place_ends(picture.out_name, "png")) errx(EX_USAGE, "%s: a picture is PNG: .png, or no ending", picture.out_name);
    int status = reading_begin(&picture.reading, picture.in_name, picture.quiet);
    if (status != STATUS_WELL) return status;
    if (picture.no_slips) picture.reading.slips.off = true;
    status = picture_log(&picture);
    reading_close(&picture.reading);
    frequency_close(&picture.frequency);
    bins_close(&picture.bins);
    output_drop(&picture.out);
    return status;
}
