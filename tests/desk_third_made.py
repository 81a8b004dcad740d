"""Logs made by the third reading's own sender (tests/third_reading.py), and ways to spoil them."""

import random
from typing import Callable, List, Tuple

from third_log import write_header, write_record
from third_reading import Sender, Setting, Shape, check_character, send, shape_of

FORMATS = (0x02, 0x04, 0x06, 0x08, 0x13, 0x15, 0x17, 0x43, 0x45, 0x47, 0x52, 0x54, 0x56, 0x5A)
Records = List[bytes]
LONG = 5  # of 97 logs the one that is longer than the tool's buffers


def setting(chance: random.Random, number: int) -> Setting:
    """One format after the other, with few channels, with all slots, or with some number between."""
    octet = FORMATS[number % len(FORMATS)]
    slots = shape_of(octet).slots
    few = [count for count in (1, 2, 3, 5, 8) if count <= slots]
    return Setting(octet, chance.choice([*few, slots, chance.randint(1, slots)]), chance.randrange(2))


def sample(chance: random.Random, shape: Shape) -> int:
    top = 1 << (shape.bits - 1)
    return chance.choice([0, 1, top, top - 1, 2 * top - 1, chance.randrange(2 * top)])


def block(chance: random.Random) -> List[int]:
    """192 bits of channel status: professional or consumer, with a check character that fits or doesn't."""
    octets = bytearray(24)
    octets[0] = chance.choice([1, 1, 1, 0]) | chance.choice([0x00, 0x40, 0x80, 0xC0, 0x80])
    octets[2] = chance.choice([0, 0x08, 0x2C, 0x0C, 0x34, 0x10, chance.randrange(256)])
    octets[6:14] = chance.choice([b"STUDARCH", b"AB\0\0\0\0CD", chance.randbytes(8)])
    octets[14:22] = chance.choice([bytes(8), chance.randbytes(8)])
    octets[22] = chance.choice([0, 0, 0, 0x10, 0x80])
    octets[23] = check_character(octets) ^ chance.choice([0, 0, 0, 0, 1])
    return [octets[at // 8] >> at % 8 & 1 for at in range(192)]


def carried(chance: random.Random, times: int) -> List[int]:
    """Ancillary numbers of one channel: nothing, anything, or blocks, some of them broken off by a next one."""
    kind = chance.randrange(4)
    if kind < 2:
        return [chance.randrange(16) if kind else 0 for _ in range(times)]
    row = [chance.randrange(8) for _ in range(chance.randrange(40))]
    bits = block(chance)
    while len(row) < times:
        bits = block(chance) if chance.randrange(3) == 0 else bits
        length = 192 if chance.randrange(8) else chance.randrange(1, 192)
        row += [(8 if at == 0 else 0) | bits[at] << 2 | chance.randrange(4) for at in range(length)]
    return row[:times]


def records(chance: random.Random, given: Setting, cells: int) -> Records:
    """A row of cells of one sender, as a log has them."""
    shape = given.shape
    wanted = shape.overhead and shape.slots >= 12 and chance.randrange(2) == 1
    state = Sender(given, chance.randrange(16), wanted, chance.randrange(16) if wanted else 0)
    rows = [carried(chance, cells * given.times) if shape.ancillary else [] for _ in range(given.channels)]
    silent, made = chance.randrange(6) == 0, []
    for cell in range(cells):
        samples = [0 if silent else sample(chance, shape) for _ in range(given.entries)]
        ancillary = [0] * given.entries
        if shape.ancillary:
            for entry in range(given.entries):
                time, channel = divmod(entry, given.channels)
                ancillary[entry] = rows[channel][cell * given.times + time]
        indication = state.number % 8 == 0 and chance.randrange(2) == 1
        state, octets = send(state, indication, samples, ancillary)
        made.append(write_record(indication, octets))
    return made


def flipped(record: bytes, bit: int) -> bytes:
    """One bit of the cell the other way, the first one sent being bit 0."""
    octets = bytearray(record)
    octets[1 + bit // 8] ^= 128 >> bit % 8
    return bytes(octets)


def spoil_bits(chance: random.Random, given: Setting, row: Records, at: int) -> None:
    for _ in range(chance.choice([1, 2, 3, 9, 40])):
        row[at] = flipped(row[at], chance.randrange(384))


def spoil_samples(chance: random.Random, given: Setting, row: Records, at: int) -> None:
    """Protected bits or protection bits, in some of the slots or in all."""
    width, slots = given.shape.subframe, given.shape.slots
    for slot in chance.sample(range(slots), chance.choice([1, 2, slots // 2, slots])):
        row[at] = flipped(row[at], slot * width + chance.choice([chance.randrange(8), width - chance.randint(1, 3)]))


def spoil_number(chance: random.Random, given: Setting, row: Records, at: int) -> None:
    """Some of the first eight sequencing bits; four of them can make another number."""
    width = given.shape.subframe
    for slot in chance.sample(range(8), chance.choice([1, 2, 3, 4, 8])):
        row[at] = flipped(row[at], slot * width + width - 4)


def spoil_octets(chance: random.Random, given: Setting, row: Records, at: int) -> None:
    start = chance.randrange(1, 49)
    some = chance.randbytes(min(chance.choice([1, 4, 48]), 49 - start))
    row[at] = row[at][:start] + some + row[at][start + len(some) :]


def spoil_indication(chance: random.Random, given: Setting, row: Records, at: int) -> None:
    row[at] = bytes([chance.choice([0, 1, 1, 1, 1, 2, 255])]) + row[at][1:]


def drop(chance: random.Random, given: Setting, row: Records, at: int) -> None:
    del row[at : at + chance.choice([1, 1, 2, 7, 14, 15, 16, 17])]


def repeat(chance: random.Random, given: Setting, row: Records, at: int) -> None:
    row[at:at] = [row[at]] * chance.choice([1, 1, 2, 9])


def swap(chance: random.Random, given: Setting, row: Records, at: int) -> None:
    other = min(at + chance.choice([1, 1, 2, 20]), len(row) - 1)
    row[at], row[other] = row[other], row[at]


WAYS: Tuple[Callable[[random.Random, Setting, Records, int], None], ...] = (
    *[spoil_bits, spoil_samples, spoil_samples, spoil_samples, spoil_number, spoil_number, spoil_octets, spoil_indication],
    *[drop, drop, repeat, swap],
)


def headed(chance: random.Random, given: Setting) -> bytes:
    """The header, at times a spoiled one: other numbers, groups too many, or a part of it."""
    header = bytearray(write_header(given))
    kind, at = chance.randrange(60), chance.randrange(3)
    if kind == 0:
        header[at] = chance.randrange(256)
    elif kind == 1:
        header[at : at + 1] = chance.choice([b"\x80\x00", b"\x80\x80\x01", b"\x80\x80\x80\x01", b"\xff\x7f", b"\x81\x01"])
    elif kind == 2:
        header[0] = chance.choice(FORMATS)
    elif kind == 3:
        del header[at:]
    return bytes(header)


def torn(chance: random.Random, log: bytes) -> bytes:
    """Octets taken out, put in or cut off, wherever that is."""
    kind, at = chance.randrange(16), chance.randrange(len(log) + 1)
    if kind == 0:
        return log[:at]
    if kind == 1:
        return log[:at] + log[at + chance.choice([1, 20, 48, 49]) :]
    if kind == 2:
        return log[:at] + chance.randbytes(chance.choice([1, 48, 49])) + log[at:]
    return log


def spoiled_log(chance: random.Random, number: int) -> bytes:
    """The log of a number: whole now and then, else spoiled in one way or in several."""
    given = setting(chance, number)
    cells = chance.choice([0, 1, 3, 12, 30, 60, 60, 120])
    row = records(chance, given, 2200 if number % 97 == LONG else cells)
    for _ in range(chance.choice([0, 1, 3, 6, 12, 30])):
        if row:
            chance.choice(WAYS)(chance, given, row, chance.randrange(len(row)))
    return torn(chance, headed(chance, given) + b"".join(row))
