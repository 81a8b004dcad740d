"""A reading handed over: a sender, a line that loses one cell and spoils another, and a receiver.

Prints what was handed out with its marks. The examples in C and Rust print the same.
Usage: python3 examples/python/handover.py, after `make lib`.
"""

import pathlib
import sys

sys.path.insert(0, str(pathlib.Path(__file__).resolve().parents[2] / "bindings" / "python"))
try:
    from rimesatchel import Fit, Receiver, Refused, Sender, Setup, Status
except ImportError as missing:
    sys.exit(f"handover.py: {missing}")

CHANNELS, TIMES = 2, 6
SETUP = Setup(0x56, CHANNELS)
CELLS, LOST, SPOILED = 4, 1, 3
ON_THE_LINE = {LOST: " The line loses it.", SPOILED: " The line turns over its first bit."}
SAID = {Fit.DOES_NOT_FIT: "doesn't fit", Fit.FITS: "fits", Fit.NONE_CARRIED: "none carried"}


def receive(receiver: Receiver, octets: bytes) -> None:
    try:
        handed = receiver.receive(octets)
    except Refused as refused:
        print(f"Receiving: {refused}.")
        return
    print(f"Received number {handed.number}, {handed.missing} missing before it.")
    for at in range(0, len(handed.entries), CHANNELS):
        print("  " + ", ".join(f"{entry.sample} {entry.mark.name.lower()}" for entry in handed.entries[at:at + CHANNELS]))


def samples_of(cell: int) -> list[int]:
    return [1000 * cell + 10 * time + channel for time in range(TIMES) for channel in range(CHANNELS)]


def reading() -> None:
    sender, receiver = Sender(SETUP), Receiver(SETUP)
    for cell in range(CELLS):
        octets = sender.send(samples_of(cell))
        print(f"Sent number {cell}.{ON_THE_LINE.get(cell, '')}")
        if cell == LOST:
            continue
        if cell == SPOILED:
            octets = bytes([octets[0] ^ 0x80]) + octets[1:]
        receive(receiver, octets)
    print("The line delivers the last cell again.")
    receive(receiver, octets)
    print(f"Cells placed since the opening: {receiver.placed}.")


def consumer_block() -> str:
    """What is said of a block of zeros, which a home recorder sends: B in its first entry, and no C bit."""
    status = Status()
    blocks = [block for bit in range(192) if (block := status.step(8 if bit == 0 else 0))]
    return SAID[blocks[-1].fit]


def main() -> None:
    try:
        Sender(Setup(0x56, 13))
    except Refused as refused:
        print(f"Opening a sender of 13 channels: {refused}.")
    try:
        reading()
        print(f"A block of consumer use: {consumer_block()}.")
    except Refused as refused:
        sys.exit(f"The reading: {refused}.")


if __name__ == "__main__":
    main()
