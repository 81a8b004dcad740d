#!/usr/bin/env python3
"""Writes a long log to standard output: 56 hex, two channels, cells numbered in turn, and some losses.

usage: long_log.py OCTETS

Of each 1,024 cells one is lost, three in a row are lost, one comes twice and one has a spoiled number. The samples run on. The log
has exactly OCTETS octets, so that its last record is mostly cut. Nothing is kept: the same OCTETS give the same log.
"""
import sys

WORDS = (0x0F, 0x84, 0x41, 0xCA, 0x22, 0xA9, 0x6C, 0xE7, 0x18, 0x93, 0x56, 0xDD, 0x35, 0xBE, 0x7B, 0xF0)  # Table A.1
ROUND = 1024  # cells after which the losses come again
LOST = {100, 300, 301, 302}
TWICE = {500}
SPOILED = {700}


def cell(number, spoiled=False):
    """A cell of twelve subframes. Its protection bits are left 0: a list doesn't judge them."""
    bits = WORDS[number] << 4  # twelve sequencing bits, the second number 0
    if spoiled:
        bits ^= 0x100
    octets = bytearray()
    for slot in range(12):
        sample = (number * 977 + slot * 131) % (1 << 24)
        octets += sample.to_bytes(3, 'big') + bytes([(bits >> (11 - slot) & 1) << 3])
    return bytes(octets)


def one_round():
    """The records of a round of cells."""
    records = bytearray()
    for k in range(ROUND):
        if k in LOST:
            continue
        record = bytes([1 if k % 64 == 0 else 0]) + cell(k % 16, k in SPOILED)
        records += record * (2 if k in TWICE else 1)
    return bytes(records)


def main():
    left = int(sys.argv[1])
    out = sys.stdout.buffer
    header = bytes([0x56, 2, 0])[:left]
    out.write(header)
    left -= len(header)
    records = one_round()
    while left > 0:
        out.write(records[:left])
        left -= min(left, len(records))


if __name__ == '__main__':
    main()
