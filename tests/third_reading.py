"""The rules read a third time: the two boxes and channel status (chapters 2 to 9 of docs/RULES.md).

It was written from docs/RULES.md alone, by a reader who had seen no source and no vector; what he got wrong was mended in RULES.
The numbers in the comments are those of RULES. It is plain and slow on purpose: tests/third_reading_vectors.py holds it against
the vectors, tests/desk_third.py the desk tool against it. third_log.py has the log, third_beside.py what stands beside the boxes.
"""

from typing import List, NamedTuple, Sequence, Tuple

LIMIT = 4_294_967_295
MOST = 18_446_744_073_709_551_615
SOUND, DAMAGED, MISSING = 0, 1, 2


class Refused(Exception):
    """A refusal and its number (chapter 16)."""

    def __init__(self, number: int) -> None:
        super().__init__(number)
        self.number = number


def refuse(number: int, when: bool) -> None:
    if when:
        raise Refused(number)


# 2. Subframe formats


class Shape(NamedTuple):
    bits: int
    ancillary: bool
    overhead: bool

    @property
    def subframe(self) -> int:
        return self.bits + 4 * self.ancillary + 4 * self.overhead

    @property
    def slots(self) -> int:
        return 384 // self.subframe


def shape_of(octet: int) -> Shape:
    ancillary, overhead, code = octet >> 6, octet >> 4 & 3, octet & 15
    refuse(1, ancillary > 1 or overhead > 1 or not (2 <= code <= 8 or code == 10))
    shape = Shape(4 * code, ancillary == 1, overhead == 1)
    refuse(1, shape.subframe not in (8, 16, 24, 32, 48))
    return shape


class Setting(NamedTuple):
    octet: int
    channels: int
    order: int

    @property
    def shape(self) -> Shape:
        return shape_of(self.octet)

    @property
    def times(self) -> int:
        return self.shape.slots // self.channels

    @property
    def entries(self) -> int:
        return self.channels * self.times

    def slot(self, entry: int) -> int:
        """5.2 and 5.4: the slot of an entry of a run."""
        time, channel = divmod(entry, self.channels)
        return entry if self.order == 0 else channel * self.times + time


def check_setting(setting: Setting) -> None:
    shape = shape_of(setting.octet)
    refuse(2, not 1 <= setting.channels <= shape.slots)
    refuse(3, setting.order > 1)


# 3 and 4. The sequencing word, and the protection of a sample


def remainder(word: int) -> int:
    """What is left of a polynomial divided by x^3 + x + 1 modulo 2."""
    while word > 7:
        word ^= 0b1011 << (word.bit_length() - 4)
    return word


def low_first(number: int, width: int) -> List[int]:
    return [number >> place & 1 for place in range(width)]


def number_bits(number: int) -> List[int]:
    first = low_first(number, 4)
    polynomial = int("".join(map(str, first)), 2)
    guard = remainder(polynomial << 3) ^ 7
    seven = first + [guard >> 2, guard >> 1 & 1, guard & 1]
    return seven + [sum(seven) % 2]


NUMBERS = {tuple(number_bits(number)): number for number in range(16)}


def sequencing_word(shape: Shape, number: int, second: int) -> List[int]:
    word = number_bits(number) + (low_first(second, 4) if shape.slots >= 12 else [])
    return word + [0] * (shape.slots - len(word))


def protection(shape: Shape, sample: int, ancillary: int) -> int:
    nine = sample << 1 if shape.bits == 8 else sample >> (shape.bits - 9)
    if shape.ancillary:
        return remainder(nine << 4 | (ancillary & 1) << 3) ^ 7
    return remainder(nine << 3) ^ 7


# 2.3: the octets of a cell


def pack(shape: Shape, slots: Sequence[Tuple[int, int]], word: Sequence[int]) -> bytes:
    whole = 0
    for (sample, ancillary), sequencing in zip(slots, word):
        subframe = sample
        if shape.ancillary:
            subframe = subframe << 4 | ancillary
        if shape.overhead:
            subframe = subframe << 4 | sequencing << 3 | protection(shape, sample, ancillary)
        whole = whole << shape.subframe | subframe
    return whole.to_bytes(48, "big")


class Slot(NamedTuple):
    sample: int
    ancillary: int
    sequencing: int
    mark: int


def unpack(shape: Shape, cell: bytes) -> List[Slot]:
    whole, slots = int.from_bytes(cell, "big"), []
    for place in range(shape.slots):
        rest = whole >> (384 - shape.subframe * (place + 1)) & ((1 << shape.subframe) - 1)
        overhead, ancillary = 0, 0
        if shape.overhead:
            rest, overhead = rest >> 4, rest & 15
        if shape.ancillary:
            rest, ancillary = rest >> 4, rest & 15
        agrees = not shape.overhead or overhead & 7 == protection(shape, rest, ancillary)
        slots.append(Slot(rest, ancillary, overhead >> 3, SOUND if agrees else DAMAGED))
    return slots


# 6. The sender


class Sender(NamedTuple):
    setting: Setting
    number: int = 0
    wanted: bool = False
    second: int = 0
    sent: bool = False


def check_sender(state: Sender) -> None:
    check_setting(state.setting)
    shape = state.setting.shape
    refuse(4, state.number > 15 or state.second > 15)
    refuse(4, state.wanted and (not shape.overhead or shape.slots == 8))
    refuse(4, state.second != 0 and not state.wanted)


def check_sample(shape: Shape, sample: int, ancillary: int) -> None:
    refuse(6, sample >> shape.bits != 0 or ancillary > 15 or (ancillary != 0 and not shape.ancillary))


def send(
    state: Sender, indication: bool, samples: Sequence[int], ancillary: Sequence[int], room: int = 48
) -> Tuple[Sender, bytes]:
    check_sender(state)
    setting, shape = state.setting, state.setting.shape
    refuse(5, room != 48 or len(samples) != setting.entries or len(ancillary) != setting.entries)
    for pair in zip(samples, ancillary):
        check_sample(shape, *pair)
    refuse(7, indication and state.number % 8 != 0)
    second = state.second
    if state.wanted and indication and state.sent:
        second = (second + 1) % 16
    slots = [(0, 0)] * shape.slots
    for entry, pair in enumerate(zip(samples, ancillary)):
        slots[setting.slot(entry)] = pair
    cell = pack(shape, slots, sequencing_word(shape, state.number, second))
    return state._replace(number=(state.number + 1) % 16, second=second, sent=True), cell


# 7. The receiver


class Receiver(NamedTuple):
    setting: Setting
    started: bool = False
    last: int = 0
    placed: int = 0


class Report(NamedTuple):
    missing: int
    number: int
    second: int
    indication: bool


class Runs(NamedTuple):
    samples: List[int]
    ancillary: List[int]
    marks: List[int]


def runs_for(setting: Setting) -> Runs:
    """A receiver's runs with room: d is at most 15, so these never give a 10."""
    room = 15 * setting.entries
    return Runs([0] * room, [0] * room, [0] * room)


def check_receiver(state: Receiver) -> None:
    check_setting(state.setting)
    refuse(4, state.last > 15)
    refuse(4, state.last != 0 and not (state.started and state.setting.shape.overhead))
    refuse(4, state.placed != 0 and not state.started)


def numbers_of(shape: Shape, slots: Sequence[Slot], indication: bool) -> Tuple[int, int]:
    """The cell's number and its second number."""
    if not shape.overhead:
        return 0, 0
    word = [slot.sequencing for slot in slots]
    number = NUMBERS.get(tuple(word[:8]))
    if number is None:
        raise Refused(8)
    refuse(15, indication and number % 8 != 0)
    return number, sum(bit << place for place, bit in enumerate(word[8:12]))


def receive(state: Receiver, cell: bytes, indication: bool, runs: Runs) -> Tuple[Receiver, Report]:
    check_receiver(state)
    setting, shape = state.setting, state.setting.shape
    refuse(5, len(cell) != 48 or len({len(run) for run in runs}) != 1)
    slots = unpack(shape, cell)
    number, second = numbers_of(shape, slots, indication)
    ahead = (number - state.last) % 16 if state.started and shape.overhead else 1
    refuse(9, ahead == 0)
    refuse(20, state.placed + ahead > LIMIT)
    refuse(10, len(runs.samples) < ahead * setting.entries)
    gap = (ahead - 1) * setting.entries
    for entry in range(gap):
        runs.samples[entry], runs.ancillary[entry], runs.marks[entry] = 0, 0, MISSING
    for entry in range(setting.entries):
        slot = slots[setting.slot(entry)]
        runs.samples[gap + entry], runs.ancillary[gap + entry], runs.marks[gap + entry] = slot.sample, slot.ancillary, slot.mark
    return Receiver(setting, True, number, state.placed + ahead), Report(ahead - 1, number, second, indication)


# 9. Channel status


class Block(NamedTuple):
    octets: bytes = bytes(24)
    bits: int = 0


def check_character(octets: bytes) -> int:
    """9.6: the x^7 term goes into the lowest bit, which is the first one on the cable."""
    register = 0xFF
    for bit in (octet >> place & 1 for octet in octets[:23] for place in range(8)):
        feedback = register >> 7 ^ bit
        register = register << 1 & 0xFF ^ (0x1D if feedback else 0)
    return int(f"{register:08b}"[::-1], 2)


def status(block: Block, ancillary: int, mark: int) -> Tuple[Block, str, bytes]:
    """One entry of a channel: the block after it, the word ("" until a block is finished) and the octets handed out."""
    refuse(14, ancillary > 15 or mark > 2 or block.bits > 191)
    nothing = bytes(24)
    if mark == MISSING:
        return Block(), "", nothing
    begins, bit = ancillary >> 3 & 1, ancillary >> 2 & 1
    if begins:
        block = Block()
    elif block.bits == 0:
        return block, "", nothing
    octets, worth = bytearray(block.octets), 1 << block.bits % 8
    octets[block.bits // 8] = octets[block.bits // 8] & ~worth | worth * bit
    if block.bits < 191:
        return Block(bytes(octets), block.bits + 1), "", nothing
    if octets[0] & 1 == 0:
        return Block(), "none", bytes(octets)
    return Block(), "fits" if octets[23] == check_character(octets) else "doesn't fit", bytes(octets)


def status_run(
    block: Block, ancillary: Sequence[int], marks: Sequence[int], start: int, step: int
) -> Tuple[Block, str, bytes, int]:
    """9.8: the block, the word, the octets handed out and the next entry."""
    refuse(5, len(ancillary) != len(marks) or step == 0)
    word, handed = "", bytes(24)
    while start < len(marks) and not word:
        block, word, handed = status(block, ancillary[start], marks[start])
        start = min(start + step, MOST)
    return block, word, handed, start
