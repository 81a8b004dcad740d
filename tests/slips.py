#!/usr/bin/env python3
"""The vectors of slips through the Python module: single steps of the watch, and whole logs with the told cells put in as missing."""
import hashlib
import itertools
import pathlib
import sys

HERE = pathlib.Path(__file__).resolve().parent
sys.path.insert(0, str(HERE.parent / "bindings/python"))

import rimesatchel as rime  # noqa: E402


def numbers(text):
    return [] if text == "-" else [int(word) for word in text.split(",")]


def joined(values):
    return ",".join(map(str, values)) or "-"


def cases(kind):
    for line in (HERE / "vectors" / f"{kind}.txt").read_text(encoding="utf-8").splitlines():
        given, wanted = line.split(" => ")
        yield given.split()[1:], wanted


def step(fields):
    """One step; its indication isn't asked for."""
    watch = rime.Watch.from_bytes(bytes(numbers(fields[0])))
    try:
        slip = watch.step(*numbers(fields[1])[:3])
        refusal, told = 0, [slip.told.value, slip.cells]
    except rime.Refused as refused:
        refusal, told = refused.number, [0, 0]
    return f"{refusal} {joined(watch.to_bytes())} {told[0]} {told[1]}"


def whole(fields):
    """A log from end to end."""
    log = rime.Log(bytes.fromhex(fields[0]))
    receiver, watch = rime.Receiver(log.setup), rime.Watch()
    entries = rime.Format.of(log.setup.format).slots // log.setup.channels * log.setup.channels
    told, alone, handed, last = [], [], [], None
    records = iter(log)
    for index in itertools.count():
        try:
            record = next(records, None)
        except rime.Refused:
            break
        if record is None:
            break
        try:
            cell = receiver.receive(record.cell, record.indication)
        except rime.Refused:
            continue
        slip = watch.step(cell.missing, cell.number, cell.second)
        if slip.told == rime.Told.BEFORE:
            told += [last, slip.cells]
            handed.insert(len(handed) - 1, [(0, 2)] * (slip.cells * entries))
        if slip.told == rime.Told.ALONE:
            alone.append(last)
        handed.append([(entry.sample, entry.mark.value) for entry in cell.entries])
        last = index
    flat = [entry for part in handed for entry in part]
    marks = [f"{mark}*{len(list(row))}" for mark, row in itertools.groupby(mark for _, mark in flat)]
    digest = hashlib.sha256(joined(sample for sample, _ in flat).encode() if flat else b"").hexdigest()[:16]
    state = watch.to_bytes()
    waiting = [last] if state[2] and state[5] else []
    return f"{joined(told)} {joined(alone)} {joined(waiting)} {receiver.placed} {joined(marks)} {digest}"


def main():
    for kind, answer in (("slip", step), ("slips", whole)):
        differ, count = 0, 0
        for fields, wanted in cases(kind):
            count += 1
            given = answer(fields)
            if given != wanted:
                differ += 1
                print(f"{kind} {' '.join(fields)[:120]}: {given}, and not {wanted}")
        if differ or not count:
            raise SystemExit(f"{kind}: Python differs in {differ} of {count}")
        print(f"{kind}: Python, {count} agree")


main()
