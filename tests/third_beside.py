"""The third reading: the cable, data units and circuits (chapters 12 to 14 of docs/RULES.md)."""

from typing import List, NamedTuple, Sequence, Tuple

from third_reading import Shape, check_sample, refuse, shape_of

# 12. Frames of an AES3 cable: a subframe is a number in which slot k is worth 2 to the power k


class Frame(NamedTuple):
    preambles: str
    halves: Tuple[int, int]


def from_cable(frame: Frame) -> List[Tuple[int, int]]:
    refuse(16, frame.preambles not in ("ZY", "XY"))
    refuse(17, any(bin(half >> 4).count("1") % 2 for half in frame.halves))
    begins = 8 if frame.preambles == "ZY" else 0
    entries = []
    for half in frame.halves:
        v, u, c = half >> 28 & 1, half >> 29 & 1, half >> 30 & 1
        entries.append((half >> 4 & 0xFFFFFF, begins | c << 2 | u << 1 | v))
    return entries


def to_cable(entries: Sequence[Tuple[int, int]]) -> Frame:
    for sample, ancillary in entries:
        check_sample(shape_of(0x56), sample, ancillary)
    refuse(29, (entries[0][1] ^ entries[1][1]) >> 3 != 0)
    halves = []
    for sample, ancillary in entries:
        v, u, c = ancillary & 1, ancillary >> 1 & 1, ancillary >> 2 & 1
        half = sample << 4 | v << 28 | u << 29 | c << 30
        halves.append(half | (bin(half).count("1") % 2) << 31)
    return Frame("ZY" if entries[0][1] >> 3 else "XY", (halves[0], halves[1]))


# 13. Data units of the other network


def check_units(octet: int, channels: int) -> Shape:
    shape = shape_of(octet)
    refuse(2, not 1 <= channels <= shape.slots)
    return shape


def to_units(
    octet: int, channels: int, size: int, samples: Sequence[int], ancillary: Sequence[int], room: int
) -> Tuple[List[bytes], int]:
    """The units, and how many octets a full one has."""
    shape = check_units(octet, channels)
    refuse(5, len(samples) != len(ancillary) or len(samples) % channels != 0)
    for pair in zip(samples, ancillary):
        check_sample(shape, *pair)
    refuse(26, shape.overhead)
    width = shape.subframe // 8
    refuse(27, size < channels * width)
    step = size // (channels * width) * channels
    entries = [
        (sample << 4 | extra if shape.ancillary else sample).to_bytes(width, "big") for sample, extra in zip(samples, ancillary)
    ]
    refuse(28, width * len(entries) > room)
    return [b"".join(entries[start : start + step]) for start in range(0, len(entries), step)], step * width


def from_unit(octet: int, channels: int, unit: bytes, room: Tuple[int, int]) -> Tuple[List[int], List[int]]:
    shape = check_units(octet, channels)
    width = shape.subframe // 8
    refuse(5, room[0] != room[1] or len(unit) == 0 or len(unit) % (width * channels) != 0)
    refuse(26, shape.overhead)
    refuse(28, len(unit) // width > room[0])
    numbers = [int.from_bytes(unit[place : place + width], "big") for place in range(0, len(unit), width)]
    if not shape.ancillary:
        return numbers, [0] * len(numbers)
    return [number >> 4 for number in numbers], [number & 15 for number in numbers]


# 14. Channels shared out over circuits


def rate(shape: Shape, share: int, frequency: int) -> int:
    """Cells a second, rounded up."""
    return -(-frequency // (shape.slots // share))


def check_shares(octet: int, channels: int, frequency: int, shares: Sequence[int], allowances: Sequence[int]) -> Tuple[str, int]:
    """"yes", or the first fault: "share" or "allowance" with its circuit, or "sum"."""
    shape = shape_of(octet)
    refuse(5, len(shares) != len(allowances))
    refuse(22, len(shares) > 64 or channels > 1024)
    refuse(23, not 1 <= frequency <= 1_000_000)
    for circuit, (share, allowance) in enumerate(zip(shares, allowances)):
        if not 1 <= share <= shape.slots:
            return "share", circuit
        if rate(shape, share, frequency) > allowance:
            return "allowance", circuit
    return ("yes", 0) if sum(shares) == channels else ("sum", 0)


def plan(octet: int, channels: int, circuits: int) -> List[int]:
    shape = shape_of(octet)
    refuse(22, circuits > 64 or channels > 1024)
    refuse(30, shape.slots * circuits < channels)
    shares = []
    for _ in range(circuits):
        shares.append(min(shape.slots, channels))
        channels -= shares[-1]
    return shares
