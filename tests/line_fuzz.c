/*
 * Spoiled datagrams through what judges, orders and records them, built to notice a wrong use of memory. Each stands in
 * memory of its own length. None may be lost sight of: each has its turn or is counted as late, repeated or not taken.
 *
 *   line_fuzz OUT.log COUNT SEED
 */
#include <err.h>
#include <stdio.h>
#include <stdlib.h>
#include <string.h>

#include "told.h"

static uint64_t seed, turns;

static unsigned chance(unsigned below) {
    seed ^= seed << 13;
    seed ^= seed >> 7;
    seed ^= seed << 17;
    return (unsigned)(seed >> 20) % below;
}

static bool turn(const struct turn *turn, void *user) {
    turns++;
    return recording_turn(turn, user);
}

/* A sender counts on, begins again now and then, and jumps; the line repeats, swaps and spoils. */
static uint16_t next_number(void) {
    static uint16_t sequence = 1;
    if (chance(3) != 0) sequence = wire_on(sequence, 1);
    if (chance(5000) == 0) sequence = (uint16_t)(1 + chance(65535));
    if (chance(500) == 0) return wire_on(sequence, chance(300));
    if (chance(50) == 0) return wire_on(sequence, 65535 - chance(80));
    return chance(10) == 0 ? wire_on(sequence, chance(70)) : sequence;
}

static size_t make(uint8_t *octets, const struct circuit *circuit) {
    size_t cells = chance(4) == 0 ? chance(30) : 4, count = WIRE_FRONT + cells * WIRE_CELL;
    for (size_t at = 0; at < count; at++) octets[at] = (uint8_t)chance(256);
    wire_front(octets, circuit, next_number(), (unsigned)cells);
    for (size_t at = WIRE_FRONT; at < count; at += WIRE_CELL) {
        uint8_t cell[RIME_CELL_OCTETS];
        memcpy(cell, octets + at + WIRE_HEADER, sizeof cell);
        if (chance(32) != 0) wire_cell(octets + at, circuit, chance(16) == 0, cell);
    }
    switch (chance(8)) {
    case 0: octets[chance(60)] ^= (uint8_t)(1 << chance(8)); break;
    case 1: return chance(2048);
    case 2: return count == WIRE_FRONT ? count : count - chance(52);
    default: break;
    }
    return count;
}

int main(int argc, char **argv) {
    if (argc != 4) errx(64, "usage: line_fuzz OUT.log COUNT SEED");
    static struct recording recording = {
        .circuit = {100, 0, 128}, .rate = 48000, .gap = 14, .pieces = 100, .most = UINT64_MAX};
    static struct order order = {.turn = turn, .user = &recording};
    static uint8_t octets[2048];
    recording.name = argv[1];
    recording.settings = (struct settings){0x56, 2, 0, 0, 0};
    recording.silence = UINT64_MAX;
    recording.quiet = true;
    uint64_t count = strtoull(argv[2], NULL, 10), not_taken = 0, time = 0;
    seed = strtoull(argv[3], NULL, 10) * 2654435761u + 1;
    if (recording_open(&recording) != STATUS_WELL) return STATUS_FILE;
    for (uint64_t at = 0; at < count; at++) {
        size_t length = make(octets, &recording.circuit);
        uint8_t *alone = malloc(length);
        if (alone == NULL) err(3, NULL);
        memcpy(alone, octets, length);
        uint16_t sequence;
        time += chance(1000000);
        if (chance(100) == 0 && time > 1000000000) time -= chance(1000000000); /* a capture's times may go back */
        if (!order_wait(&order, time)) errx(1, "order_wait");
        if (wire_datagram(alone, length, &recording.circuit, &sequence) != WIRE_TAKEN) not_taken++;
        else if (!order_take(&order, sequence, (struct datagram){alone, length, time})) errx(1, "order_take");
        recording_at(&recording, time);
        free(alone);
    }
    if (!order_end(&order) || !recording_close(&recording)) errx(1, "the end");
    if (turns + order.late + order.repeated + order.disbelieved + not_taken != count)
        errx(1, "a datagram was lost sight of");
    printf("line: %llu datagrams: %llu had their turn, %llu late, %llu repeated, %llu far ahead, %llu not taken; %u "
           "logs\n",
           (unsigned long long)count, (unsigned long long)turns, (unsigned long long)order.late,
           (unsigned long long)order.repeated, (unsigned long long)order.disbelieved, (unsigned long long)not_taken,
           recording.logs);
    return 0;
}
