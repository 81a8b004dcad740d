#!/usr/bin/env python3
"""Writes examples/reading.log, the log that `make demo` lists: 56 hex, two channels, eight records of a reading in which cells
were lost, repeated and spoiled, and whose last record is cut. Written from document 01 alone, without the library.

usage: reading.py > reading.log
"""
import math
import sys

TABLE = [0x0F, 0x84, 0x41, 0xCA, 0x22, 0xA9, 0x6C, 0xE7, 0x18, 0x93, 0x56, 0xDD, 0x35, 0xBE, 0x7B, 0xF0]


def protection(sample, valid):
    rest = 0
    for shift in range(23, 14, -1):
        rest = rest * 2 + (sample >> shift & 1)
        rest = rest ^ 0b1011 if rest > 7 else rest
    for bit in (valid, 0, 0, 0):
        rest = rest * 2 + bit
        rest = rest ^ 0b1011 if rest > 7 else rest
    return 7 - rest


def cell(number, start):
    """Six times of two channels: a tone on the left, the same a quarter later on the right."""
    octets = b""
    for slot in range(12):
        time, channel = divmod(slot, 2)
        value = round(4_000_000 * math.sin((start + time) / 20 + channel * math.pi / 2)) % 2**24
        bit = TABLE[number] >> (7 - slot) & 1 if slot < 8 else 0
        octets += (value << 8 | bit << 3 | protection(value, 0)).to_bytes(4, "big")
    return octets


def main():
    log = bytes([0x56, 2, 0])
    for number, indication in ((5, 0), (6, 0), (9, 0), (9, 0)):
        log += bytes([indication]) + cell(number, number * 6)
    spoiled = bytearray(cell(10, 60))
    spoiled[3] ^= 8
    log += b"\0" + spoiled
    for number, indication, start in ((11, 0, 66), (0, 1, 96)):
        log += bytes([indication]) + cell(number, start)
    log += b"\0" + cell(1, 102)[:20]
    sys.stdout.buffer.write(log)


main()
