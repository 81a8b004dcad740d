"""What the channel status of a reading says, for tests/desk_third.py: blocks, sampling frequency, the lines of `labels`."""

from typing import Dict, List, NamedTuple, Tuple

from third_reading import Block, Runs, Setting, status

HERTZ = {0x80: 48000, 0x40: 44100, 0xC0: 32000}
# Of octet 2: bits 3 to 5, bit 3 first, and the word length where at most 20 bits, or at most 24, are allowed.
LENGTHS = {"100": (16, 20), "011": (17, 21), "010": (18, 22), "001": (19, 23), "101": (20, 24)}
FIRST_TIMES = 4800


class Finished(NamedTuple):
    channel: int
    past: int  # the sample time behind its last bit
    word: str
    octets: bytes

    @property
    def hertz(self) -> int:
        return 0 if self.word == "none" else HERTZ.get(self.octets[0] & 0xC0, 0)

    @property
    def counts(self) -> bool:
        return self.word == "fits" and self.octets[22] & 0x10 == 0


def blocks_of(setting: Setting, handed: Runs) -> List[Finished]:
    blocks, found = [Block()] * setting.channels, []
    for entry, (ancillary, mark) in enumerate(zip(handed.ancillary, handed.marks)):
        time, channel = divmod(entry, setting.channels)
        blocks[channel], word, octets = status(blocks[channel], ancillary, mark)
        if word:
            found.append(Finished(channel, time + 1, word, octets))
    return found


class Rate(NamedTuple):
    """The frequency that is used, --rate's words, what others say, and whether nothing names it."""

    hertz: int
    words: List[str]
    contradicted: List[Tuple[int, int, int]]  # a frequency, how many blocks, the first one's channel from 1
    assumed: bool


def rate_of(blocks: List[Finished], asked: int) -> Rate:
    named: Dict[int, Tuple[int, int]] = {}
    for block in blocks:
        if block.past <= FIRST_TIMES and block.counts and block.hertz:
            count, channel = named.get(block.hertz, (0, block.channel + 1))
            named[block.hertz] = (count + 1, channel)
    hertz = asked or next(iter(named), 48000)
    others = [(other, *named[other]) for other in named if other != hertz]
    return Rate(hertz, ["--rate", str(asked)] if asked else [], others, not asked and not named)


def letters(octets: bytes) -> str:
    shown = (chr(octet) if 0x20 <= octet < 0x7F else f"\\x{octet:02X}" for octet in octets if octet)
    return "".join(shown)


def word_length(octet: int) -> int:
    most = octet & 7
    bits = LENGTHS.get("".join(str(octet >> place & 1) for place in (3, 4, 5)))
    return 0 if bits is None or most not in (0, 2, 4) else bits[most == 4]


def line(setting: Setting, row: List[Finished], rate: Rate) -> str:
    """The line of a row of blocks that say the same."""
    block = row[0]
    own = block.hertz if not rate.words and (block.counts or rate.assumed) else 0
    hertz = own or rate.hertz
    start = f"channel {block.channel + 1}: {(block.past - 192) / hertz:.6f} to {row[-1].past / hertz:.6f} s"
    start += f", {len(row)} block{'' if len(row) == 1 else 's'}: "
    if block.word == "none":
        return start + "none carried, consumer use"
    said = [block.word, "professional"]
    if block.hertz:
        said.append(f"{block.hertz} Hz")
    if word_length(block.octets[2]):
        said.append(f"{word_length(block.octets[2])} bits")
    if block.octets[22] & 0x10:
        said[-1] += " (flagged as unreliable)"
    said += [f'origin "{letters(block.octets[6:10])}"', f'destination "{letters(block.octets[10:14])}"']
    return start + ", ".join(said)


def status_lines(setting: Setting, blocks: List[Finished], rate: Rate) -> List[str]:
    """A line for each row of alike blocks of a channel, when it ends. Sample addresses aren't compared."""
    rows: Dict[int, List[Finished]] = {}
    lines = []
    for block in blocks:
        row = rows.setdefault(block.channel, [])
        if row and (row[0].word, row[0].octets[:14], row[0].octets[22]) != (block.word, block.octets[:14], block.octets[22]):
            lines.append(line(setting, row, rate))
            row.clear()
        row.append(block)
    for channel in range(setting.channels):
        if channel in rows:
            lines.append(line(setting, rows[channel], rate))
        else:
            none = "" if setting.shape.ancillary else ": the format has no ancillary bits"
            lines.append(f"channel {channel + 1}: no channel status block{none}")
    return lines
