/*
 * Rimesatchel's management port (IEC 62365, clause 8), for the studio desk box. It has an archive of its own,
 * librime_management.a, which may be linked beside librimesatchel.a.
 *
 * A message is the content of one AAL-SDU on a management connection, from its message type on. The desk box is the
 * equipment: it hands each message to rime_equipment, sends back what then stands in `answer`, and sends the network
 * what the report asks for. Whoever controls it hands each message to rime_controller. rime_port_settings says what the
 * box of a port is opened with. docs/MANAGEMENT.md says how they are used, and what to know. Nothing here allocates,
 * keeps anything between two calls, or reads or writes anything but what it is lent; runs may hold any octets whatever.
 *
 * A message shorter than its table acts as if zeros stood at its end; what is past its table is not read (8.3.5). A
 * message of another type is ignored: 0 is returned and nothing is written, but zeros to the report.
 *
 * Lent memory: a run is a pointer and the number of its octets. A pointer is never NULL (a run of no octets may point
 * anywhere else), and no two arguments of one call overlap.
 */
#ifndef RIME_MANAGEMENT_H
#define RIME_MANAGEMENT_H

#include <stddef.h>
#include <stdint.h>

#ifdef __cplusplus
extern "C" {
#endif

/* Lengths, in octets or numbers. */
enum {
    RIME_PORT = 28,               /* a port's record */
    RIME_INPUT_STATUS = 9,        /* an input port status message (Table 6) */
    RIME_OUTPUT_STATUS = 29,      /* an output port status message (Table 7): no answer is longer */
    RIME_MANAGEMENT_REPORT = 4,
    RIME_SETTINGS = 3
};

/* Refusal numbers. 1, 2 and 3 are those of an opening: rimesatchel.h. */
enum {
    RIME_MANAGEMENT_DONE = 0,
    RIME_MANAGEMENT_NO_OCTETS = 24, /* a message of no octets */
    RIME_MANAGEMENT_NO_ROOM = 25    /* an answer is due that is longer than its buffer */
};

/*
 * A port's record is octets 1 to 28 of its status message. Records stand end to end; a rest of fewer than 28 octets at
 * the end is no port, and stays. No call changes the first two octets of a record, or more than one record.
 */
enum {
    RIME_PORT_SUBSYSTEM = 0,      /* subsystem code, as below; no message is about a port with another one */
    RIME_PORT_SELECTOR = 1,
    RIME_PORT_STATUS = 2,         /* one of the codes below */
    RIME_PORT_FORMAT = 3,         /* subframe format, as rime_sender_open takes it */
    RIME_PORT_PACKING = 4,
    RIME_PORT_FREQUENCY = 5,      /* sampling frequency */
    RIME_PORT_REFERENCE = 6,      /* input port, 6 and 7: first endpoint reference, 0 without a call; 8 to 27 stay */
    RIME_PORT_SOURCE = 6,         /* output port, 6 to 25: source ATM address; 26 and 27: endpoint reference */
    RIME_PORT_SOURCE_REFERENCE = 26
};

enum { RIME_INPUT_PORT = 0, RIME_OUTPUT_PORT = 1 };

/*
 * A port's status. In a status message 00 and 81 to 87 hex speak of what was asked for, and in a controlling entity's
 * record of the last enquiry, not of the format in that record.
 */
enum {
    RIME_PORT_NONE = 0x00,   /* no port with this selector */
    RIME_PORT_DISABLED = 0x40,
    RIME_PORT_IN_USE = 0x60,    /* an output port in use for a source without an ATM address */
    RIME_PORT_UNSUPPORTED = 0x80, /* plus 4 for the subframe format, 2 for the packing, 1 for the sampling frequency: 81 to 87 */
    RIME_PORT_ENABLED = 0xC0,   /* no audio signal; an output port available for calls */
    RIME_PORT_ACTIVE = 0xE0     /* an audio signal; an output port connected to a call */
};

/* Message types. */
enum {
    RIME_MESSAGE_ENQUIRY = 1,
    RIME_MESSAGE_CONNECTION = 2,
    RIME_MESSAGE_DISCONNECTION = 3,
    RIME_MESSAGE_STATUS = 129
};

/* Places in what rime_equipment reports, and what the network is to be sent. */
enum {
    RIME_MANAGEMENT_ANSWER = 0,    /* octets of the answer, 0 where none is written */
    RIME_MANAGEMENT_NETWORK = 1,   /* what the network is to be sent, as below */
    RIME_MANAGEMENT_PORT = 2,      /* for which port, counted from 0 */
    RIME_MANAGEMENT_REFERENCE = 3  /* with which endpoint reference */
};
enum { RIME_NETWORK_NOTHING = 0, RIME_SETUP = 1, RIME_ADD_PARTY = 2, RIME_RELEASE = 3, RIME_DROP_PARTY = 4 };

/*
 * Takes a message as the equipment.
 *
 * A status enquiry (1) is answered by the status message of the port that fits it best: of the ports of that subsystem
 * code and selector the one whose subframe format, packing and sampling frequency differ in the fewest of the three,
 * and of several the first. A port supports the one format that it is set to. Octet 3 of the answer is 00 where there
 * is no such port, 81 to 87 hex where the best one differs, and else the port's own status. An enquiry about a
 * subsystem code above 1 is answered by two octets, 129 and the code.
 *
 * An audio connection request (2) is about the first input port with that selector and format that is the source of a
 * call, or whose status is C0 or E0 hex. If it is the source of one, an ADD PARTY is asked for and nothing changes.
 * Else octets 5 and 6 of the message become its first endpoint reference, as they came, and a SETUP is asked for. The
 * destination address of either is octets 7 to 26 of the message, zeros where it is shorter.
 *
 * An audio disconnection request (3) is about the first input port with that selector and format that is the source of
 * a call. With FFFF hex in octets 5 and 6 a RELEASE is asked for, and its first endpoint reference becomes 0. Else a
 * DROP PARTY is asked for and nothing changes.
 *
 * A request for which there is no such port, and a connection request with 0 in octets 5 and 6, is answered by the
 * status message for its octets 1 to 4, and nothing changes.
 *
 * Leaves in `answer`, from its start, the status message where there is one; what is past it stays. Leaves in `report`
 * its length, and what the network is to be sent, for which port and with which endpoint reference. In the network the
 * first party is 0: the reference is 0 in a SETUP and where a DROP PARTY is for the first party, and else the one in
 * octets 5 and 6 of the message. A RELEASE has none: 0. All are 0 where they don't apply. No message both changes a
 * record and is answered.
 *
 * Refused, with nothing written but zeros to `report`: 24, a message of no octets; 25, an answer is due that is longer
 * than `answer_len`. RIME_OUTPUT_STATUS octets are always room enough. Where no answer is due the buffer isn't looked
 * at.
 */
uint8_t rime_equipment(uint8_t *ports, size_t ports_len, const uint8_t *message, size_t message_len, uint8_t *answer,
                       size_t answer_len, uint64_t report[RIME_MANAGEMENT_REPORT]);

/*
 * Takes a message as the controlling entity. A status message (129) about subsystem code 0 or 1, with a status of its
 * table (00, 40, 81 to 87, C0, E0 hex; of an output port 60 too), is about the port that fits its octets 1, 2 and 4 to
 * 6 best, as above. In that port's record the status is noted. With 40, 60, C0 and E0 so is the format in octets 4 to
 * 6; with 00 and 81 to 87 these only repeat what was asked for, and the record keeps its own. Of an input port octets 7
 * and 8 are noted with every status, of an output port 7 to 28 with E0 alone. Every other message is ignored, and so is
 * one about a port of which there is no record.
 *
 * Refused, with nothing written: 24, a message of no octets.
 */
uint8_t rime_controller(uint8_t *ports, size_t ports_len, const uint8_t *message, size_t message_len);

/* Places in what rime_port_settings leaves, as rime_sender_open and rime_receiver_open take them. */
enum { RIME_SETTINGS_FORMAT = 0, RIME_SETTINGS_CHANNELS = 1, RIME_SETTINGS_ORDER = 2 };

/*
 * What the box of a port is opened with, by its record, whatever its subsystem code and status: only octets 3 and 4 are
 * read (6.2, 6.3). Leaves in `settings` the format, C, which is the low six bits of the packing octet, and the order:
 * its two top bits 00 (temporal grouping) are order 0, and 01 (grouping by channel) order 1.
 *
 * Refused, with zeros in `settings`: 1, the octet is none of the fourteen; 2, C is 0 or above S; 3, the two top bits are
 * 10 (multi-channel) or 11 (reserved).
 */
uint8_t rime_port_settings(const uint8_t port[RIME_PORT], uint32_t settings[RIME_SETTINGS]);

/*
 * The packing octet of a record in these settings: order * 64 + C, but C alone where C is 1 or S (6.3.2). The slots are
 * the same there in either order.
 *
 * Refused as an opening is, with 0 in `packing`: 1, the octet is none of the fourteen; 2, `channels` is 0 or above S; 3,
 * `order` is above 1. All numbers are judged as they stand, never cut.
 *
 * Packing, then settings: format and C come back, and so does the order but for C = 1 and C = S, where it is 0.
 * Settings, then packing: the octet comes back but for 40 hex + 1 and 40 hex + S, which come back without the 40.
 */
uint8_t rime_port_packing(uint32_t format, uint32_t channels, uint32_t order, uint8_t *packing);

#ifdef __cplusplus
}
#endif

#endif
