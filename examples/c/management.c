/*
 * The desk box's management port: an enquiry in another format, one in the port's own, a connection that needs a SETUP,
 * a second one that needs an ADD PARTY, one without an endpoint reference, and their end. Last a sender is opened with
 * what the port's record is set to: it stands in the other archive.
 */
#include <inttypes.h>
#include <stdio.h>
#include <string.h>

#include "rime_management.h"
#include "rimesatchel.h"

enum { SELECTOR = 4, FORMAT = 0x56, CHANNELS = 2, ORDER = 1, FREQUENCY = 0x90, OTHER_FREQUENCY = 0x50 };
enum { PORTS = 2, RECORDS = PORTS * RIME_PORT };

static const char *const network_said[] = {"nothing", "a SETUP", "an ADD PARTY", "a RELEASE", "a DROP PARTY"};

static void print_octets(const char *what, const uint8_t *octets, size_t count) {
    printf("%s:", what);
    for (size_t at = 0; at < count; at++) printf(" %02X", octets[at]);
    printf("\n");
}

/* The desk box takes a message; what it answers goes to the controlling entity. */
static void converse(uint8_t *desk, uint8_t *known, const char *what, const uint8_t *message, size_t length) {
    uint8_t answer[RIME_OUTPUT_STATUS];
    uint64_t report[RIME_MANAGEMENT_REPORT];
    print_octets(what, message, length);
    uint8_t refusal = rime_equipment(desk, RECORDS, message, length, answer, sizeof answer, report);
    if (refusal != RIME_MANAGEMENT_DONE) {
        printf("  refused %u\n", refusal);
        return;
    }
    uint64_t network = report[RIME_MANAGEMENT_NETWORK];
    if (network != RIME_NETWORK_NOTHING)
        printf("  the network is to be sent %s for port %" PRIu64 ", endpoint reference %" PRIu64 "\n",
               network_said[network], report[RIME_MANAGEMENT_PORT], report[RIME_MANAGEMENT_REFERENCE]);
    size_t octets = (size_t)report[RIME_MANAGEMENT_ANSWER];
    if (octets == 0) return;
    print_octets("  answered", answer, octets);
    rime_controller(known, RECORDS, answer, octets);
    print_octets("  known of the port now", known, 8);
}

/* A call from its SETUP to its RELEASE. */
static void call_and_end(uint8_t *desk, uint8_t *known, uint8_t packing) {
    uint8_t request[27] = {RIME_MESSAGE_CONNECTION, SELECTOR, FORMAT, packing, FREQUENCY, 0, 7, 0x47};
    converse(desk, known, "A connection request", request, sizeof request);
    request[6] = 8;
    converse(desk, known, "Another one", request, sizeof request);
    request[6] = 0;
    converse(desk, known, "One with the endpoint reference 0", request, sizeof request);

    uint8_t end[] = {RIME_MESSAGE_DISCONNECTION, SELECTOR, FORMAT, packing, FREQUENCY, 0, 7};
    converse(desk, known, "The end of the first", end, sizeof end);
    end[5] = end[6] = 0xFF;
    converse(desk, known, "The end of all", end, sizeof end);
    converse(desk, known, "And once more", end, sizeof end);
    converse(desk, known, "A message of no octets", end, 0);
}

/* The sender of a port is opened with what its record is set to. */
static void open_sender(const uint8_t *port) {
    uint32_t settings[RIME_SETTINGS];
    uint8_t sender[RIME_SENDER_STATE];
    uint8_t refusal = rime_port_settings(port, settings);
    if (refusal == RIME_MANAGEMENT_DONE)
        refusal = rime_sender_open(settings[RIME_SETTINGS_FORMAT], settings[RIME_SETTINGS_CHANNELS],
                                   settings[RIME_SETTINGS_ORDER], 0, false, 0, sender);
    if (refusal != RIME_DONE) {
        printf("No sender for the port: %s\n", rime_refusal_text(refusal));
        return;
    }
    printf("A sender for the port: format %" PRIX32 " hex, %" PRIu32 " channels, order %" PRIu32 "\n",
           settings[RIME_SETTINGS_FORMAT], settings[RIME_SETTINGS_CHANNELS], settings[RIME_SETTINGS_ORDER]);
}

int main(void) {
    uint8_t packing;
    uint8_t refusal = rime_port_packing(FORMAT, CHANNELS, ORDER, &packing);
    if (refusal != RIME_MANAGEMENT_DONE) {
        printf("no packing octet: %s\n", rime_refusal_text(refusal));
        return 1;
    }
    /* An input port with an audio signal, and an output port that is available, both with the selector 4. */
    uint8_t desk[RECORDS] = {0}, known[RECORDS] = {0};
    const uint8_t input[] = {RIME_INPUT_PORT, SELECTOR, RIME_PORT_ACTIVE, FORMAT, packing, FREQUENCY};
    const uint8_t output[] = {RIME_OUTPUT_PORT, SELECTOR, RIME_PORT_ENABLED, FORMAT, packing, FREQUENCY};
    memcpy(desk, input, sizeof input);
    memcpy(desk + RIME_PORT, output, sizeof output);
    /* The controlling entity knows that there are such ports. Their format it learns only by asking in it. */
    known[RIME_PORT_SELECTOR] = known[RIME_PORT + RIME_PORT_SELECTOR] = SELECTOR;
    known[RIME_PORT + RIME_PORT_SUBSYSTEM] = RIME_OUTPUT_PORT;

    const uint8_t other[] = {RIME_MESSAGE_ENQUIRY, RIME_INPUT_PORT, SELECTOR, FORMAT, packing, OTHER_FREQUENCY};
    converse(desk, known, "An enquiry in another sampling frequency", other, sizeof other);
    const uint8_t enquiry[] = {RIME_MESSAGE_ENQUIRY, RIME_INPUT_PORT, SELECTOR, FORMAT, packing, FREQUENCY};
    converse(desk, known, "A status enquiry in the port's format", enquiry, sizeof enquiry);

    call_and_end(desk, known, packing);
    open_sender(desk);
    return 0;
}
