#!/usr/bin/env python3
"""The tables of docs/LOSSES.md: how long fourteen cells are, and what an outage does.

    python3 tools/losses.py            writes both tables into docs/LOSSES.md
    python3 tools/losses.py --check    fails where they are not what stands there
"""
import pathlib
import sys

PAGE = pathlib.Path(__file__).resolve().parent.parent / "docs/LOSSES.md"
# S, and the formats with overhead that have it
FORMATS = {24: "13, 52", 16: "15, 54", 12: "17, 56", 8: "5A"}
FREQUENCIES = [32000, 44100, 48000, 96000]
OUTAGES = [14, 15, 16, 17, 31, 32, 119, 127, 200]


def row(*cells):
    return "| " + " | ".join(str(cell) for cell in cells) + " |"


def channels(slots, times):
    """The numbers of channels C of which a cell of so many slots has T sample times."""
    fit = [c for c in range(1, slots + 1) if slots // c == times]
    return "" if not fit else str(fit[0]) if len(fit) == 1 else f"{fit[0]} to {fit[-1]}"


def milliseconds(times, frequency):
    """Fourteen cells, in hundredths of a millisecond, rounded down."""
    hundredths = 14 * times * 100_000 // frequency
    return f"{hundredths // 100}.{hundredths % 100:02}"


def durations():
    yield row(*(f"{names} hex: C" for names in FORMATS.values()), "T", *(f"{f / 1000:g} kHz" for f in FREQUENCIES))
    yield row(*["---"] * 5, *["---:"] * 4)
    for times in sorted({slots // c for slots in FORMATS for c in range(1, slots + 1)}, reverse=True):
        yield row(*(channels(slots, times) for slots in FORMATS), times, *(milliseconds(times, f) for f in FREQUENCIES))


def starts(last, steps):
    """Block starts among so many numbers after this one."""
    return (last + steps) // 8 - last // 8


def found(gone):
    """Cells that second numbers tell beside those told missing, of a sender that counts blocks, whatever the last number was."""
    told = set()
    for last in range(16):
        up, by = starts(last, gone + 1) % 16, starts(last, (gone + 1) % 16)
        told.add(0 if up <= by else (up - by + 1) // 2 * 16)
    if len(told) > 1:
        raise SystemExit(f"losses: what is found of {gone} lost cells hangs on the last number: {sorted(told)}")
    return told.pop()


def outages():
    """As the theorems say it: k lost ones are shown as k modulo 16, and a cell after 15 modulo 16 is refused and lost too."""
    yield row("lost in a row", "the next unaltered cell", "then told missing", "places after it are early by", "found by second numbers")
    yield row("---:", "---", "---:", "---:", "---:")
    for lost in OUTAGES:
        refused = lost % 16 == 15
        gone = lost + refused
        slip = f"{gone // 16 * 16} cells" if gone >= 16 else "none"
        yield row(lost, "refused 9, and lost too" if refused else "taken", gone % 16, slip, found(gone))


def put(text, name, lines):
    start, end = f"<!-- {name} -->\n", f"<!-- end of {name} -->\n"
    before, _, rest = text.partition(start)
    _, found, after = rest.partition(end)
    if not found:
        raise SystemExit(f"losses: {PAGE.name} has no place for {name}")
    return before + start + "\n" + "\n".join(lines) + "\n\n" + end + after


text = PAGE.read_text(encoding="utf-8")
new = put(put(text, "durations", durations()), "outages", outages())
if "--check" not in sys.argv[1:]:
    PAGE.write_text(new, encoding="utf-8")
elif new != text:
    raise SystemExit("losses: docs/LOSSES.md has other tables: python3 tools/losses.py writes them")
