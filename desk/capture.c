/* Capture files, in and out. A packet is looked at where it stands, and no length in it is believed before it is
 * compared. */
#include "capture.h"

#include <err.h>
#include <errno.h>
#include <fcntl.h>
#include <stdlib.h>
#include <string.h>
#include <unistd.h>

enum { PACKET_HEADER = 16, LONGEST = 262144, SNAPPED = 65536, BUFFER = 1 << 20 };
enum { LINK_ETHERNET = 1, LINK_RAW = 101, LINK_COOKED = 113 };
enum { ETHERNET = 14, COOKED = 16, VLAN = 4, IPV4 = 20, IPV6 = 40, UDP = 8 };
enum { TYPE_IPV4 = 0x0800, TYPE_IPV6 = 0x86DD, TYPE_VLAN = 0x8100, TYPE_SERVICE_VLAN = 0x88A8, PROTOCOL_UDP = 17 };
static const uint32_t MICRO = 0xA1B2C3D4, NANO = 0xA1B23C4D, PCAPNG = 0x0A0D0D0A;

static unsigned get16(const uint8_t *from) {
    return (unsigned)from[0] << 8 | from[1];
}

static uint32_t get32(const uint8_t *from, bool big) {
    uint32_t number = 0;
    for (int at = 0; at < 4; at++) number = number << 8 | from[big ? at : 3 - at];
    return number;
}

/* What is left of a packet. */
struct rest {
    const uint8_t *at;
    size_t count;
};

static void drop(struct rest *rest, size_t count) {
    rest->at += count;
    rest->count -= count;
}

/* The link's own header, with any tags. The type of what follows it, 0 where there is nothing. */
static unsigned link_type(struct rest *rest, unsigned link) {
    size_t header = link == LINK_ETHERNET ? ETHERNET : link == LINK_COOKED ? COOKED : 0;
    if (rest->count <= header) return 0;
    if (header == 0) return rest->at[0] >> 4 == 4 ? TYPE_IPV4 : rest->at[0] >> 4 == 6 ? TYPE_IPV6 : 0;
    unsigned type = get16(rest->at + header - 2);
    drop(rest, header);
    while ((type == TYPE_VLAN || type == TYPE_SERVICE_VLAN) && rest->count > VLAN) {
        type = get16(rest->at + 2);
        drop(rest, VLAN);
    }
    return type;
}

/* Leaves what stands behind a header, up to the end that it names. False where that is past the packet's. */
static bool within(struct rest *rest, size_t header, size_t total, bool *part) {
    *part = total > rest->count;
    if (total < header || *part) return false;
    rest->count = total;
    drop(rest, header);
    return true;
}

static bool in_ipv4(struct rest *rest, struct address *from, bool *part) {
    const uint8_t *at = rest->at;
    if (rest->count < IPV4 || at[0] >> 4 != 4) return false;
    size_t header = (size_t)(at[0] & 15) * 4;
    bool fragment = (get16(at + 6) & 0x3FFF) != 0; /* more follow, or this isn't the first */
    if (at[9] != PROTOCOL_UDP || fragment || header < IPV4) return false;
    from->count = 4;
    memcpy(from->octets, at + 12, 4);
    return within(rest, header, get16(at + 2), part);
}

/* Without extension headers: a fragment has one. */
static bool in_ipv6(struct rest *rest, struct address *from, bool *part) {
    const uint8_t *at = rest->at;
    if (rest->count < IPV6 || at[0] >> 4 != 6 || at[6] != PROTOCOL_UDP) return false;
    from->count = 16;
    memcpy(from->octets, at + 8, 16);
    return within(rest, IPV6, IPV6 + get16(at + 4), part);
}

bool capture_find(const uint8_t *packet, size_t count, unsigned link, unsigned port, struct captured *captured,
                  bool *part) {
    struct rest rest = {packet, count};
    unsigned type = link_type(&rest, link);
    *part = false;
    if (type == TYPE_IPV4 ? !in_ipv4(&rest, &captured->from, part)
                          : type != TYPE_IPV6 || !in_ipv6(&rest, &captured->from, part))
        return false;
    if (rest.count < UDP || get16(rest.at + 2) != port) return false;
    size_t total = get16(rest.at + 4);
    if (total < UDP || total > rest.count) return false;
    captured->octets = rest.at + UDP;
    captured->count = total - UDP;
    return true;
}

/* Sees that so many octets are held from the place on, or all that there are. */
static bool hold(struct capture *capture, size_t count) {
    if (capture->held - capture->place >= count || capture->ended) return true;
    capture->held -= capture->place;
    memmove(capture->buffer, capture->buffer + capture->place, capture->held);
    capture->place = 0;
    while (capture->held < count && !capture->ended && *capture->stopped == 0) {
        ssize_t got = read(capture->fd, capture->buffer + capture->held, BUFFER - capture->held);
        if (got < 0 && errno == EINTR) continue;
        if (got < 0) {
            say_failed(capture->name);
            return false;
        }
        capture->ended = got == 0;
        capture->held += (size_t)got;
        capture->octets += (uint64_t)got;
    }
    return true;
}

static int say_unknown(const struct capture *capture, const char *why) {
    warnx("%s: %s", capture->name, why);
    return STATUS_REFUSED;
}

static int read_start(struct capture *capture) {
    if (!hold(capture, CAPTURE_START)) return STATUS_FILE;
    const uint8_t *start = capture->buffer;
    if (capture->held >= 4 && get32(start, true) == PCAPNG)
        return say_unknown(capture, "this is a pcapng capture: editcap -F pcap makes one that is read");
    if (capture->held < CAPTURE_START) return say_unknown(capture, "this isn't a capture: it is too short for one");
    capture->big = start[0] == MICRO >> 24;
    uint32_t magic = get32(start, capture->big);
    capture->nano = magic == NANO;
    if (magic != MICRO && magic != NANO) return say_unknown(capture, "this isn't a capture (a classic pcap file)");
    capture->link = get32(start + 20, capture->big) & 0xFFFF;
    if (capture->link != LINK_ETHERNET && capture->link != LINK_RAW && capture->link != LINK_COOKED) {
        warnx("%s: link %u isn't read: 1 (Ethernet), 101 (raw IP) and 113 (Linux cooked) are", capture->name,
              capture->link);
        return STATUS_REFUSED;
    }
    capture->place = CAPTURE_START;
    return STATUS_WELL;
}

int capture_open(struct capture *capture, const char *name, unsigned port, const volatile sig_atomic_t *stopped) {
    *capture = (struct capture){.name = shown(name, false), .port = port, .stopped = stopped};
    capture->fd = strcmp(name, "-") == 0 ? STDIN_FILENO : open(name, O_RDONLY | O_CLOEXEC);
    if (capture->fd < 0) return say_failed(name);
    capture->buffer = malloc(BUFFER);
    if (capture->buffer == NULL) err(STATUS_FILE, "%s", name);
    int status = read_start(capture);
    if (status != STATUS_WELL) capture_close(capture);
    return status;
}

void capture_close(struct capture *capture) {
    if (capture->fd > STDIN_FILENO) close(capture->fd);
    free(capture->buffer);
    capture->buffer = NULL;
}

enum capture_step capture_next(struct capture *capture, struct captured *captured) {
    for (;;) {
        if (!hold(capture, PACKET_HEADER)) return CAPTURE_FAILED;
        size_t left = capture->held - capture->place;
        if (left == 0) return CAPTURE_END;
        if (left < PACKET_HEADER) break;
        size_t count = get32(capture->buffer + capture->place + 8, capture->big);
        if (count > LONGEST) break;
        if (!hold(capture, PACKET_HEADER + count)) return CAPTURE_FAILED;
        if (capture->held - capture->place < PACKET_HEADER + count) break;
        const uint8_t *header = capture->buffer + capture->place;
        capture->place += PACKET_HEADER + count;
        bool part;
        if (capture_find(header + PACKET_HEADER, count, capture->link, capture->port, captured, &part)) {
            uint64_t part_of_second = get32(header + 4, capture->big);
            captured->came =
                get32(header, capture->big) * UINT64_C(1000000000) + part_of_second * (capture->nano ? 1 : 1000);
            return CAPTURE_DATAGRAM;
        }
        capture->passed++;
        capture->part += part;
    }
    if (*capture->stopped != 0) return CAPTURE_STOPPED;
    warnx("%s: the capture is cut or damaged %llu octets after its start", capture->name,
          (unsigned long long)(capture->octets - (capture->held - capture->place)));
    return CAPTURE_CUT;
}

static void put_little(uint8_t *to, uint32_t number) {
    for (int at = 0; at < 4; at++) to[at] = (uint8_t)(number >> 8 * at);
}

static void put16(uint8_t *to, unsigned number) {
    to[0] = (uint8_t)(number >> 8);
    to[1] = (uint8_t)number;
}

void capture_start(uint8_t to[CAPTURE_START]) {
    static const uint8_t version[] = {2, 0, 4, 0};
    memset(to, 0, CAPTURE_START);
    put_little(to, NANO);
    memcpy(to + 4, version, sizeof version);
    put_little(to + 16, SNAPPED);
    put_little(to + 20, LINK_RAW);
}

/* From 127.0.0.1 to 127.0.0.1, with a check sum in the IP header and none in that of UDP. */
void capture_before(uint8_t to[CAPTURE_BEFORE], uint64_t came, unsigned port, size_t count) {
    static const uint8_t home[4] = {127, 0, 0, 1};
    uint8_t *ip = to + PACKET_HEADER, *udp = ip + IPV4;
    size_t total = IPV4 + UDP + count;
    memset(to, 0, CAPTURE_BEFORE);
    put_little(to, (uint32_t)(came / 1000000000));
    put_little(to + 4, (uint32_t)(came % 1000000000));
    put_little(to + 8, (uint32_t)total);
    put_little(to + 12, (uint32_t)total);
    ip[0] = 0x45;
    put16(ip + 2, (unsigned)total);
    ip[8] = 64;
    ip[9] = PROTOCOL_UDP;
    memcpy(ip + 12, home, 4);
    memcpy(ip + 16, home, 4);
    uint32_t sum = 0;
    for (int at = 0; at < IPV4; at += 2) sum += get16(ip + at);
    sum = (sum & 0xFFFF) + (sum >> 16);
    put16(ip + 10, ~(sum + (sum >> 16)) & 0xFFFF);
    put16(udp, 49152);
    put16(udp + 2, port);
    put16(udp + 4, (unsigned)(UDP + count));
}
