/* The circuit on the line, and addresses. */
#include "line.h"

#include <err.h>
#include <netinet/in.h>
#include <stdio.h>
#include <string.h>

#include "options.h"

enum { LABEL_LEAST = 16, LABEL_MOST = 1048575, VPI_MOST = 4095, VCI_MOST = 65535, PORT_MOST = 65535 };

/* Labels below 16 have meanings of their own (RFC 3032). */
uint32_t option_label(const struct argp_state *state, const char *word) {
    uint64_t label = option_up_to(state, "label", word, 10, UINT32_MAX);
    if (label < LABEL_LEAST || label > LABEL_MOST) argp_error(state, "--label: %d to %d", LABEL_LEAST, LABEL_MOST);
    return (uint32_t)label;
}

void option_circuit(const struct argp_state *state, const char *word, struct circuit *circuit) {
    unsigned vpi, vci;
    char more;
    if (strspn(word, "0123456789/") != strlen(word) || sscanf(word, "%5u/%6u%c", &vpi, &vci, &more) != 2 ||
        vpi > VPI_MOST || vci > VCI_MOST)
        argp_error(state, "--circuit: VPI/VCI, 0 to %d and 0 to %d", VPI_MOST, VCI_MOST);
    circuit->vpi = (uint16_t)vpi;
    circuit->vci = (uint16_t)vci;
}

static unsigned port_of(const struct argp_state *state, const char *name, const char *word) {
    uint64_t port = option_up_to(state, name, word, 10, UINT32_MAX);
    if (port == 0 || port > PORT_MOST) argp_error(state, "--%s: ports are 1 to %d", name, PORT_MOST);
    return (unsigned)port;
}

struct end option_end(const struct argp_state *state, const char *name, const char *word, int alone) {
    struct end end = {.port = WIRE_PORT};
    const char *host = word, *colon = strrchr(word, ':'), *bracket = strchr(word, ']');
    size_t length = colon == NULL ? strlen(word) : (size_t)(colon - word);
    if (word[0] == '[') {
        if (bracket == NULL || (bracket[1] != '\0' && bracket + 1 != colon))
            argp_error(state, "--%s: [ADDRESS]:PORT", name);
        if (bracket[1] == '\0') colon = NULL;
        host = word + 1;
        length = (size_t)(bracket - host);
    } else if (colon != NULL && strchr(word, ':') != colon)
        argp_error(state, "--%s: an IPv6 address stands in brackets", name);
    else if (colon == NULL && alone == OPTION_PORT) {
        end.port = port_of(state, name, word);
        return end;
    }
    if (length == 0 || length >= sizeof end.host) argp_error(state, "--%s: %s has no address", name, word);
    memcpy(end.host, host, length);
    if (colon != NULL) end.port = port_of(state, name, colon + 1);
    else if (alone == OPTION_PORT) argp_error(state, "--%s: %s has no port", name, word);
    return end;
}

static struct addrinfo *look_up(const char *host, const char *port) {
    struct addrinfo hints = {.ai_family = AF_UNSPEC, .ai_socktype = SOCK_DGRAM, .ai_flags = AI_NUMERICSERV},
                    *found = NULL;
    int fault = getaddrinfo(host, port, &hints, &found);
    if (fault == 0) return found;
    warnx("%s: %s", host, gai_strerror(fault));
    return NULL;
}

struct addrinfo *line_find(const struct end *end) {
    char port[8];
    snprintf(port, sizeof port, "%u", end->port);
    return look_up(end->host, port);
}

struct address address_of(const struct sockaddr_storage *socket) {
    struct address address = {0};
    if (socket->ss_family == AF_INET) {
        address.count = 4;
        memcpy(address.octets, &((const struct sockaddr_in *)socket)->sin_addr, 4);
    } else if (socket->ss_family == AF_INET6) {
        address.count = 16;
        memcpy(address.octets, &((const struct sockaddr_in6 *)socket)->sin6_addr, 16);
    }
    return address;
}

bool address_is_home(const struct address *address) {
    static const uint8_t home[16] = {[15] = 1};
    return address->count == 4 ? address->octets[0] == 127 : memcmp(address->octets, home, sizeof home) == 0;
}

int senders_find(struct senders *senders, const char *host) {
    struct addrinfo *found = look_up(host, NULL);
    if (found == NULL) return STATUS_FILE;
    senders->any = false;
    for (struct addrinfo *at = found; at != NULL && senders->count < LINE_SENDERS; at = at->ai_next) {
        struct sockaddr_storage socket = {0};
        memcpy(&socket, at->ai_addr, at->ai_addrlen < sizeof socket ? at->ai_addrlen : sizeof socket);
        senders->addresses[senders->count++] = address_of(&socket);
    }
    freeaddrinfo(found);
    return STATUS_WELL;
}

bool senders_have(const struct senders *senders, const struct address *address) {
    for (unsigned at = 0; at < senders->count; at++) {
        const struct address *known = &senders->addresses[at];
        if (known->count == address->count && memcmp(known->octets, address->octets, known->count) == 0) return true;
    }
    return senders->any;
}
