#!/usr/bin/env python3
"""Spoiled logs through the desk tool, held against the third reading (tests/third_reading.py), which shares nothing with it.

usage: desk_third.py PROGRAM [COUNT [SEED [FIRST]]]

The logs are made by that reading's own sender and spoiled: cells dropped, repeated, swapped, bits and octets spoiled, headers
spoiled, logs cut. Each goes through list, anything, salvage, sheet, labels and receive, into WAV and one other kind of file,
which sox reads. Lines, samples, marks, label tracks, figures and exit statuses must be what the reading says. A log that comes
out otherwise is kept as desk-third-SEED-NUMBER.log.
"""

import pathlib
import random
import re
import struct
import subprocess
import sys
import tempfile
from typing import List, NamedTuple, Optional, Tuple

from desk_made import by_sox, read_wave
from desk_third_labels import Finished, Rate, blocks_of, rate_of, status_lines
from desk_third_made import spoiled_log
from third_log import NAMES, anything, list_lines, log_header, read_log, salvage, salvage_lines, sheet_lines
from third_reading import DAMAGED, MISSING, SOUND, Refused, Runs, Setting

FILE_BITS = {8: 16, 12: 16, 16: 16, 20: 24, 24: 24, 28: 32, 32: 32, 40: 64}


class Case(NamedTuple):
    """A log, and what the reading makes of it. Without a setting its header is refused."""

    log: bytes
    refusal: int
    setting: Optional[Setting]
    handed: Runs
    fault: Optional[Tuple[int, int]]
    counts: Tuple[int, int, int, int]  # cells sound, missing, gaps, refused


def read(log: bytes) -> Case:
    handed, fault, counts = Runs([], [], []), None, [0, 0, 0, 0]
    try:
        setting, _ = log_header(log)
    except Refused as refusal:
        return Case(log, refusal.number, None, handed, None, (0, 0, 0, 0))
    for k, event in enumerate(read_log(log)):
        if event.report is not None:
            counts[0] += 1
            counts[1] += event.report.missing
            counts[2] += event.report.missing > 0
            for whole, part in zip(handed, event.runs):
                whole += part
        elif event.word == "refused":
            counts[3] += 1
        else:
            fault = (k, event.number)
    return Case(log, 0, setting, handed, fault, (counts[0], counts[1], counts[2], counts[3]))


class Different(Exception):
    pass


def same(what: str, got: object, expected: object) -> None:
    if got != expected:
        raise Different(f"{what}:\n  the tool    {str(got)[:600]}\n  the reading {str(expected)[:600]}")


class Ran(NamedTuple):
    status: int
    out: str
    said: str


class Desk:
    """The program, and a folder with the log in it."""

    def __init__(self, program: str, folder: pathlib.Path, chance: random.Random, log: bytes) -> None:
        self.program, self.folder, self.chance, self.log = program, folder, chance, log
        self.name = folder / "in.log"
        self.name.write_bytes(log)

    def run(self, *words: object) -> Ran:
        """The log goes by its name, or at times by a pipe."""
        given = [str(word) for word in words]
        piped = self.chance.randrange(6) == 0
        if piped:
            given = ["-" if word == str(self.name) else word for word in given]
        done = subprocess.run(
            [self.program, *given], input=self.log if piped else b"", capture_output=True, check=False, cwd=self.folder
        )
        said = done.stderr.decode(errors="replace")
        if "Sanitizer" in said or "runtime error" in said:
            raise Different(said)
        return Ran(done.returncode, done.stdout.decode(errors="replace"), said)

    def output(self, name: str) -> pathlib.Path:
        path = self.folder / name
        path.unlink(missing_ok=True)
        return path


def status_of(case: Case, flawed: bool = False) -> int:
    """2 for a refused header and for a fault, else 1 where --strict, or a no, makes a flaw count."""
    return 2 if case.refusal or case.fault else int(flawed)


def fault_said(case: Case, ran: Ran, what: str) -> None:
    said = re.findall(r"record (\d+) broken (\d+): ", ran.said)
    same(f"{what}'s word on a fault", said, [tuple(map(str, case.fault))] if case.fault else [])
    refused = re.findall(r"refused (\d+): ", ran.said) if case.refusal else []
    same(f"{what}'s word on the header", refused, [str(case.refusal)] if case.refusal else [])


def try_list(case: Case, desk: Desk) -> None:
    strict = desk.chance.choice([[], ["--strict"]])
    ran = desk.run("list", desk.name, *strict)
    same("list", ran.out, "".join(line + "\n" for line in list_lines(case.log)))
    same("list's status", ran.status, status_of(case, bool(strict) and case.counts[1] + case.counts[3] > 0))
    fault_said(case, ran, "list")


def try_anything(case: Case, desk: Desk) -> None:
    ran, told = desk.run("anything", desk.name), anything(case.log)
    same("anything", ran.out, told + "\n")
    same("anything's status", ran.status, 0 if told.startswith("yes") else status_of(case, True))
    if not told.startswith("yes"):
        fault_said(case, ran, "anything")


def try_salvage(case: Case, desk: Desk) -> None:
    new = desk.output("new.log")
    ran = desk.run("salvage", desk.name, new)
    same("salvage's output", ran.out, "")
    same("salvage's status", ran.status, status_of(case))
    if case.refusal:
        same("a log beside a refused header", new.exists(), False)
    else:
        lines = salvage_lines(case.log)
        same("salvage's list", ran.said.splitlines()[: len(lines)], lines)
        same("the new log", new.read_bytes().hex(), salvage(case.log, len(case.log), len(case.log)).log.hex())
    fault_said(case, ran, "salvage")


def try_sheet(case: Case, desk: Desk) -> None:
    lines = sheet_lines([case.log])
    plain = desk.run("sheet", "--plain", "-q", desk.name)
    same("sheet --plain", plain.out.splitlines(), lines)
    same("sheet's status", plain.status, status_of(case))
    state = f"refused {case.refusal}" if case.refusal else ""
    if case.fault:
        state = f"broken {case.fault[1]} at {case.fault[0]}"
    ran = desk.run("sheet", desk.name)
    name = re.search(r'"(.*)"', ran.out)
    full = [NAMES + ",state,file", f'{lines[1]},{state},"{name[1] if name else ""}"', lines[2] + ",,"]
    same("sheet", ran.out.splitlines(), full)
    same("sheet's status", ran.status, status_of(case))
    fault_said(case, ran, "sheet")


def try_labels(case: Case, desk: Desk, blocks: List[Finished], rate: Rate) -> None:
    ran = desk.run("labels", "--no-slips", desk.name, *rate.words)
    same("labels", ran.out.splitlines(), status_lines(case.setting, blocks, rate) if case.setting else [])
    same("labels' status", ran.status, status_of(case))
    fault_said(case, ran, "labels")


def sound_of(case: Case, setting: Setting) -> List[float]:
    """The samples as the sound file has them: signed, in the top bits of the file's."""
    bits = setting.shape.bits
    signed = [value - (1 << bits) if value >> (bits - 1) else value for value in case.handed.samples]
    if bits == 40:
        return [value / 2**39 for value in signed]
    return [value << (FILE_BITS[bits] - bits) for value in signed]


def channels_named(damaged: List[int]) -> str:
    names = [str(channel + 1) for channel in damaged]
    if len(names) == 1:
        return f"channel {names[0]}"
    return f"channels {', '.join(names[:-1])} and {names[-1]}"


def track(case: Case, setting: Setting, hertz: int) -> List[str]:
    """The label track: stretches of sample times that are missing, or damaged in the same channels."""
    stretches: List[Tuple[str, int, int]] = []
    for time in range(len(case.handed.marks) // setting.channels):
        marks = case.handed.marks[time * setting.channels : (time + 1) * setting.channels]
        if MISSING in marks:
            what = "missing"
        elif DAMAGED in marks:
            what = "damaged in " + channels_named([at for at, mark in enumerate(marks) if mark == DAMAGED])
        else:
            continue
        if stretches and stretches[-1][0] == what and stretches[-1][2] == time:
            stretches[-1] = (what, stretches[-1][1], time + 1)
        else:
            stretches.append((what, time, time + 1))
    lines = []
    for what, start, past in stretches:
        named = f"sample {start}" if past == start + 1 else f"samples {start} to {past - 1}"
        lines.append(f"{start / hertz:.6f}\t{past / hertz:.6f}\t{what}: {named}")
    return lines


def summary(case: Case, setting: Setting, ran: Ran) -> None:
    sound, missing, gaps, refused = case.counts
    cells = f"cells: {sound} sound, {missing} missing in {gaps} place{'' if gaps == 1 else 's'}, {refused} refused"
    same("the summary's cells", re.findall(r"^cells: .*", ran.said, re.M), [cells])
    lost, damaged = case.handed.marks.count(MISSING), case.handed.marks.count(DAMAGED)
    length = len(case.handed.marks) // setting.channels
    told = re.findall(r": (\d+) samples a channel, .*; (\d+) samples? missing, (\d+) damaged", ran.said)
    same("the summary's samples", told, [(str(length), str(lost), str(damaged))])


def try_receive(case: Case, desk: Desk, rate: Rate) -> None:
    wav, marks, labels = desk.output("out.wav"), desk.output("out.marks"), desk.output("out.txt")
    strict, quiet = desk.chance.choice([[], ["--strict"]]), desk.chance.choice([[], ["-q"]])
    ran = desk.run("receive", "--no-slips", desk.name, wav, "--marks", marks, "--labels", labels, *rate.words, *strict, *quiet)
    flawed = case.counts[1] + case.counts[3] + case.handed.marks.count(DAMAGED) > 0 or bool(rate.contradicted)
    same("receive's status", ran.status, status_of(case, bool(strict) and flawed))
    fault_said(case, ran, "receive")
    if case.setting is None:
        same("files beside a refused header", [path.exists() for path in (wav, marks, labels)], [False] * 3)
        return
    bits, hertz, channels, sound = read_wave(wav)
    same("the file's bits and channels", (bits, channels), (FILE_BITS[case.setting.shape.bits], case.setting.channels))
    same("the samples", sound, sound_of(case, case.setting))
    same("the marks", list(marks.read_bytes()), case.handed.marks)
    same("the sampling frequency", hertz, rate.hertz)
    same("the label track", labels.read_text().splitlines(), track(case, case.setting, hertz))
    said = re.findall(r"channel status says (\d+) Hz in (\d+) blocks?, the first of them in channel (\d+)", ran.said)
    same("what channel status says otherwise", [tuple(map(int, words)) for words in said], rate.contradicted)
    if not quiet:
        summary(case, case.setting, ran)


def try_kinds(case: Case, desk: Desk) -> None:
    """Another kind of file, read by sox: the same samples; or a status, and no file, where it can't hold them."""
    if case.setting is None:
        return
    kind, bits = desk.chance.choice(["flac", "w64", "aiff"]), FILE_BITS[case.setting.shape.bits]
    out = desk.output(f"out.{kind}")
    ran = desk.run("receive", "-q", "--no-slips", desk.name, out)
    if kind == "flac" and (bits > 24 or case.setting.channels > 8):
        same("FLAC's status", ran.status, 64 if bits == 64 else 3)
        same("a FLAC file that can't hold them", out.exists(), False)
        return
    same(f"{kind}'s status", ran.status, status_of(case))
    if bits < 64 and (case.handed.samples or kind != "aiff"):  # sox takes no AIFF without samples
        same(f"{kind}'s samples", by_sox(str(out)), [int(value) << 32 - bits for value in sound_of(case, case.setting)])


def try_log(program: str, folder: pathlib.Path, seed: int, number: int) -> Case:
    chance = random.Random(seed * 1_000_003 + number)
    log = spoiled_log(chance, number)
    case, desk = read(log), Desk(program, folder, chance, log)
    blocks = blocks_of(case.setting, case.handed) if case.setting else []
    rate = rate_of(blocks, chance.choice([0, 0, 0, 44100, 96000]))
    try:
        for trial in (try_list, try_anything, try_salvage, try_sheet):
            trial(case, desk)
        try_labels(case, desk, blocks, rate)
        try_receive(case, desk, rate)
        try_kinds(case, desk)
    except (Different, AssertionError, OSError, struct.error, subprocess.CalledProcessError) as difference:
        kept = pathlib.Path(f"desk-third-{seed}-{number}.log")
        kept.write_bytes(log)
        sys.exit(f"desk: log {number} of seed {seed}, kept as {kept}: {difference!s}")
    return case


def main(program: str, count: int, seed: int, first: int) -> None:
    tally = {"refused headers": 0, "faults": 0, "sound cells": 0, "missing": 0, "refused": 0, "entries": 0, "marked 1": 0}
    with tempfile.TemporaryDirectory() as place:
        for number in range(first, first + count):
            case = try_log(program, pathlib.Path(place), seed, number)
            figures = (case.refusal > 0, case.fault is not None, case.counts[0], case.counts[1], case.counts[3])
            marks = (len(case.handed.marks), case.handed.marks.count(DAMAGED))
            for name, figure in zip(tally, [*figures, *marks]):
                tally[name] += int(figure)
    print(f"desk: {count} spoiled logs as the third reading has them ({', '.join(f'{n} {name}' for name, n in tally.items())})")


if __name__ == "__main__":
    if not 2 <= len(sys.argv) <= 5:
        sys.exit(__doc__)
    numbers = [int(word) for word in sys.argv[2:]] + [200, 1, 0][len(sys.argv) - 2 :]
    main(str(pathlib.Path(sys.argv[1]).resolve()), numbers[0], numbers[1], numbers[2])
