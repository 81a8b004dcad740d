/* A sidecar, written and read back. */
#include "sidecar.h"

#include <err.h>
#include <errno.h>
#include <fcntl.h>
#include <limits.h>
#include <stdlib.h>
#include <string.h>
#include <unistd.h>

enum { SIDECAR = 1 }; /* what kind of sidecar it is: another number would be another kind */

static int write_some(const char *text, size_t count, void *output) {
    return output_write(output, text, count) ? 0 : -1;
}

void sidecar_write(const struct sidecar *sidecar, const char *file, struct output *output) {
    const char *slash = strrchr(file, '/'), *last = slash == NULL ? file : slash + 1;
    json_t *object = json_object();
    json_object_set_new(object, "sidecar", json_integer(SIDECAR));
    json_put_octets(object, "file", last, strlen(last));
    json_object_set_new(object, "channels", json_integer(sidecar->channels));
    json_object_set_new(object, "length", json_integer((json_int_t)sidecar->length));
    json_object_set_new(object, "rate", json_integer(sidecar->rate));
    json_object_set_new(object, "bits", json_integer(sidecar->bits));
    json_object_set_new(object, "md5", json_string(sidecar->md5));
    kept_to_json(&sidecar->kept, object);
    if (json_dump_callback(object, write_some, output, JSON_INDENT(2)) != 0 && output->error == 0)
        output->error = ENOMEM;
    json_decref(object);
    output_write(output, "\n", 1);
}

static bool get_number(const json_t *object, const char *key, uint64_t least, uint64_t most, uint64_t *number) {
    const json_t *member = json_object_get(object, key);
    json_int_t value = json_integer_value(member);
    *number = (uint64_t)value;
    return json_is_integer(member) && value >= 0 && *number >= least && *number <= most;
}

static bool get_md5(const json_t *object, char md5[SUM_MD5]) {
    const char *text = json_string_value(json_object_get(object, "md5"));
    if (text == NULL || strlen(text) != SUM_MD5 - 1 || strspn(text, "0123456789abcdef") != SUM_MD5 - 1) return false;
    memcpy(md5, text, SUM_MD5);
    return true;
}

/* What is wrong, or NULL. */
static const char *take(struct sidecar *sidecar, const json_t *object) {
    uint64_t kind, channels, rate, bits;
    if (!get_number(object, "sidecar", SIDECAR, SIDECAR, &kind)) return "sidecar";
    if (!get_number(object, "channels", 1, INT_MAX, &channels)) return "channels";
    if (!get_number(object, "length", 0, INT64_MAX / 2, &sidecar->length)) return "length";
    if (!get_number(object, "rate", 1, INT_MAX, &rate)) return "rate";
    if (!get_number(object, "bits", 1, 32, &bits)) return "bits";
    if (!get_md5(object, sidecar->md5)) return "md5";
    sidecar->channels = (unsigned)channels;
    sidecar->rate = (unsigned)rate;
    sidecar->bits = (unsigned)bits;
    return kept_of_json(&sidecar->kept, object);
}

/* All of a file, up to a limit that no sidecar reaches. NULL and errno where it can't be read. */
static char *read_all(int fd, size_t *count) {
    enum { MOST = 1 << 25 };
    char *text = malloc(MOST + 1);
    if (text == NULL) err(STATUS_FILE, "a sidecar");
    for (*count = 0; *count <= MOST;) {
        ssize_t got = read(fd, text + *count, MOST + 1 - *count);
        if (got < 0 && errno == EINTR) continue;
        if (got == 0) return text;
        if (got < 0) {
            free(text);
            return NULL;
        }
        *count += (size_t)got;
    }
    return text;
}

int sidecar_read(struct sidecar *sidecar, const char *name) {
    int fd = strcmp(name, "-") == 0 ? STDIN_FILENO : open(name, O_RDONLY | O_CLOEXEC);
    name = shown(name, false);
    size_t count = 0;
    char *text = fd < 0 ? NULL : read_all(fd, &count);
    if (text == NULL) {
        int status = say_failed(name);
        if (fd > STDIN_FILENO) close(fd);
        return status;
    }
    if (fd > STDIN_FILENO) close(fd);
    json_error_t fault;
    json_t *object = json_loadb(text, count, JSON_REJECT_DUPLICATES, &fault);
    const char *wrong = object == NULL ? NULL : take(sidecar, object);
    if (object == NULL) warnx("%s: isn't a sidecar: line %d: %s", name, fault.line, fault.text);
    else if (wrong != NULL) warnx("%s: isn't a sidecar: its member %s isn't there, or isn't such a one", name, wrong);
    free(text);
    int status = object == NULL || wrong != NULL ? STATUS_REFUSED : STATUS_WELL;
    json_decref(object);
    return status;
}
