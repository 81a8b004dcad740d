"""The third reading of docs/RULES.md, chapter 17: slips, by second numbers."""

import hashlib
import itertools
from typing import List, NamedTuple, Tuple

import third_log
import third_reading as third
from third_reading import Refused, Report, refuse

NOTHING, BEFORE, ALONE, PERHAPS = range(4)


class Watch(NamedTuple):
    started: int = 0
    number: int = 0
    sure: int = 0
    second: int = 0
    starts: int = 0
    waits: int = 0
    other: int = 0


def block_starts(last: int, ahead: int) -> int:
    """17.1: multiples of 8 among the numbers after the first one up to the second, counted on past 15."""
    return sum((last + step) % 8 == 0 for step in range(1, ahead + 1))


def more_missing(went_up: int, may: int) -> int:
    """17.1: at least sixteen for each two that it went up too far, rounded up."""
    too_far = max(0, went_up - may)
    return 16 * -(-too_far // 2)


def check(watch: Watch, report: Report) -> None:
    """17.5"""
    refuse(4, max(watch.started, watch.sure, watch.waits) > 1)
    refuse(4, max(watch.number, watch.second, watch.starts, watch.other) > 15)
    if not watch.started:
        refuse(4, watch != Watch())
    elif not watch.sure:
        refuse(4, not watch.waits or watch.second != 0 or watch.starts != 0)
    elif not watch.waits:
        refuse(4, watch.starts != 0 or watch.other != 0)
    refuse(31, report.missing > 14 or report.number > 15 or report.second > 15)
    refuse(31, report.missing != 0 if not watch.started else report.missing + 1 != (report.number - watch.number) % 16)


def step(watch: Watch, report: Report) -> Tuple[Watch, int, int]:
    """17.3 and 17.4: the watch afterwards, what is told, and how many cells."""
    check(watch, report)
    number, second = report.number, report.second
    in_step, waiting = Watch(1, number, 1, second), Watch(1, number, waits=1, other=second)
    if not watch.started:
        return waiting, NOTHING, 0
    passed = block_starts(watch.number, report.missing + 1)
    agrees = watch.waits == 1 and (second - watch.other) % 16 == passed
    if not watch.sure:
        return (in_step if agrees else waiting), NOTHING, 0
    since = min(15, watch.starts + passed)
    went_up = (second - watch.second) % 16
    if went_up == since:
        return in_step, ALONE if watch.waits else NOTHING, 0
    if agrees:
        cells = more_missing((watch.other - watch.second) % 16, watch.starts)
        return in_step, BEFORE if cells else NOTHING, cells
    return Watch(1, number, 1, watch.second, since, 1, second), PERHAPS, more_missing(went_up, since)


class Story(NamedTuple):
    """What is told of a log, and what is handed out with the told cells put in."""

    told: List[int]
    alone: List[int]
    waiting: List[int]
    placed: int
    marks: List[str]
    digest: str


def story(log: bytes) -> Story:
    setting, place = third_log.log_header(log)
    receiver, watch = third.Receiver(setting), Watch()
    told: List[int] = []
    alone: List[int] = []
    handed: List[List[Tuple[int, int]]] = []
    last = 0
    for index in itertools.count():
        try:
            record = third_log.record_at(log, place)
        except Refused:
            break
        if record is None:
            break
        place += 49
        runs = third.runs_for(setting)
        try:
            receiver, report = third.receive(receiver, record[1], record[0], runs)
        except Refused:
            continue
        watch, what, cells = step(watch, report)
        if what == BEFORE:
            told += [last, cells]
            handed.insert(len(handed) - 1, [(0, 2)] * (cells * setting.entries))
        alone += [last] if what == ALONE else []
        written = (report.missing + 1) * setting.entries
        handed.append(list(zip(runs.samples[:written], runs.marks[:written])))
        last = index
    flat = [entry for part in handed for entry in part]
    rows = [f"{mark}*{len(list(row))}" for mark, row in itertools.groupby(mark for _, mark in flat)]
    samples = ",".join(str(sample) for sample, _ in flat)
    waiting = [last] if watch.sure and watch.waits else []
    return Story(told, alone, waiting, receiver.placed, rows, hashlib.sha256(samples.encode()).hexdigest()[:16])
