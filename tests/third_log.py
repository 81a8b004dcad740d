"""The third reading: the log, and what is told of it (chapters 10 and 11 of docs/RULES.md)."""

from typing import Iterator, List, NamedTuple, Optional, Sequence, Tuple

from third_reading import (
    DAMAGED,
    LIMIT,
    MISSING,
    SOUND,
    Receiver,
    Refused,
    Report,
    Runs,
    Sender,
    Setting,
    check_receiver,
    check_sender,
    check_setting,
    receive,
    refuse,
    runs_for,
    send,
)

# 10. The log


def log_number(log: bytes, place: int) -> Tuple[int, int]:
    """The number that starts at a place, and the place after it."""
    number = 0
    for group in range(3):
        refuse(11, place + group >= len(log))
        octet = log[place + group]
        number |= (octet & 127) << 7 * group
        if octet < 128:
            refuse(11, octet == 0 and group > 0)
            return number, place + group + 1
    raise Refused(11)


def log_header(log: bytes) -> Tuple[Setting, int]:
    octet, place = log_number(log, 0)
    channels, place = log_number(log, place)
    order, place = log_number(log, place)
    check_setting(Setting(octet, channels, order))
    return Setting(octet, channels, order), place


def write_number(number: int, room: int) -> bytes:
    groups = [number & 127]
    while number > 127:
        number >>= 7
        groups[-1] |= 128
        groups.append(number & 127)
    refuse(11, len(groups) > 3 or len(groups) > room)
    return bytes(groups)


def write_header(setting: Setting, room: int = 3) -> bytes:
    check_setting(setting)
    refuse(11, room < 3)
    return bytes(setting)


def write_record(indication: bool, cell: bytes, room: int = 49) -> bytes:
    refuse(5, len(cell) != 48)
    refuse(12, room < 49)
    return bytes([indication]) + cell


class Event(NamedTuple):
    """What a log says at one record: its place, a word, and what goes with the word."""

    place: int
    word: str
    number: int = 0
    report: Optional[Report] = None
    runs: Runs = Runs([], [], [])


def record_at(log: bytes, place: int) -> Optional[Tuple[bool, bytes]]:
    """10.5: the indication and the cell of the record at a place; nothing at the end."""
    if place >= len(log):
        return None
    refuse(11, log[place] > 1)
    refuse(12, place + 49 > len(log))
    return log[place] == 1, log[place + 1 : place + 49]


def judge_log(state: Receiver, log: bytes, place: int, room: int) -> Tuple[Receiver, bytes, int, int]:
    """10.6: the state, five octets a record, the place where it ends and why."""
    check_receiver(state)
    runs, judged = runs_for(state.setting), bytearray()
    while True:
        try:
            record = record_at(log, place)
            if record is None:
                return state, bytes(judged), place, 0
            refuse(10, len(judged) + 5 > room)
        except Refused as fault:
            return state, bytes(judged), place, fault.number
        try:
            state, report = receive(state, record[1], record[0], runs)
            judged += bytes([0, *report])
        except Refused as refusal:
            judged += bytes([refusal.number, 0, 0, 0, 0])
        place += 49


def receive_log(state: Receiver, log: bytes, place: int, runs: Runs) -> Tuple[Receiver, List[int]]:
    """10.7: the state, and what is counted."""
    check_receiver(state)
    refuse(5, len({len(run) for run in runs}) != 1)
    written = taken = missing = 0
    refused = {8: 0, 9: 0, 15: 0, 20: 0}
    while True:
        part = Runs(*(run[written:] for run in runs))
        try:
            record = record_at(log, place)
            if record is None:
                why = 0
                break
            state, report = receive(state, record[1], record[0], part)
        except Refused as refusal:
            if refusal.number not in refused:
                why = refusal.number
                break
            refused[refusal.number] += 1
        else:
            entries = (report.missing + 1) * state.setting.entries
            for run, new in zip(runs, part):
                run[written : written + entries] = new[:entries]
            written, taken, missing = written + entries, taken + 1, missing + report.missing
        place += 49
    return state, [place, written, why, taken, missing, *refused.values()]


def send_log(
    state: Sender, indications: bool, samples: Sequence[int], ancillary: Sequence[int], log: bytearray, place: int
) -> Tuple[Sender, List[int]]:
    """10.8: the state, and what is counted; the log is written."""
    check_sender(state)
    refuse(5, len(samples) != len(ancillary))
    used, cells = state.setting.entries, 0
    while True:
        here = slice(cells * used, (cells + 1) * used)
        if len(samples) < here.stop:
            why = 0
            break
        if place + 49 > len(log):
            why = 12
            break
        indication = indications and state.number % 8 == 0
        try:
            state, cell = send(state, indication, samples[here], ancillary[here])
        except Refused as refusal:
            why = refusal.number
            break
        log[place : place + 49] = write_record(indication, cell)
        place, cells = place + 49, cells + 1
    return state, [place, cells * used, why, cells]


def read_log(log: bytes, limit: int = LIMIT) -> Iterator[Event]:
    """10.4, with 11.2's limit."""
    setting, place = log_header(log)
    state, runs = Receiver(setting), runs_for(setting)
    while place < len(log):
        try:
            refuse(13, place >= limit)
            refuse(13, log[place] <= 1 and min(place + 49, len(log)) > limit)
            record = record_at(log, place)
        except Refused as fault:
            yield Event(place, "broken", fault.number)
            return
        assert record is not None
        try:
            state, report = receive(state, record[1], record[0], runs)
            length = (report.missing + 1) * setting.entries
            yield Event(place, "sound", report.number, report, Runs(*(run[:length] for run in runs)))
        except Refused as refusal:
            yield Event(place, "refused", refusal.number)
        place += 49


# 11. What is told of a log


def list_lines(log: bytes, limit: int = LIMIT) -> Iterator[str]:
    try:
        setting, _ = log_header(log)
    except Refused as refusal:
        yield f"log refused {refusal.number}"
        return
    yield f"format {setting.octet} {setting.channels} {setting.order}"
    sound = missing = refused = 0
    for k, event in enumerate(read_log(log, limit)):
        if event.report is not None:
            sound, missing = sound + 1, missing + event.report.missing
            yield f"{k} sound {event.report.missing} number {event.number}"
        else:
            refused += event.word == "refused"
            yield f"{k} {event.word} {event.number}"
    yield f"end {sound} sound {missing} missing {refused} refused"


def anything(log: bytes) -> str:
    try:
        log_header(log)
    except Refused as refusal:
        return f"log refused {refusal.number}"
    whole = 0
    for k, event in enumerate(read_log(log)):
        if any(mark == SOUND and sample != 0 for sample, mark in zip(event.runs.samples, event.runs.marks)):
            return f"yes {k}"
        whole += event.word != "broken"
    return f"no {whole}"


class Salvaged(NamedTuple):
    log: bytes
    left_out: List[Tuple[int, int]]
    cut: int


def salvage(log: bytes, room: int, room_for_list: int) -> Salvaged:
    """11.4: the new log, the records left out with their refusals, and how many octets were cut."""
    _, start = log_header(log)
    kept, left_out, cut = bytearray(log[:start]), [], 0
    for k, event in enumerate(read_log(log)):
        if event.word == "sound":
            kept += log[event.place : event.place + 49]
        elif event.word == "refused":
            left_out.append((k, event.number))
        else:
            cut = len(log) - event.place
    refuse(21, len(kept) > room or len(left_out) > room_for_list)
    return Salvaged(bytes(kept), left_out, cut)


def salvage_lines(log: bytes) -> List[str]:
    """11.6: what goes to standard error."""
    try:
        saved = salvage(log, len(log), len(log))
    except Refused as refusal:
        return [f"log refused {refusal.number}"]
    lines = [f"{k} refused {number}" for k, number in saved.left_out]
    return lines + [f"end {(len(saved.log) - 3) // 49} kept {len(saved.left_out)} left out {saved.cut} cut"]


REFUSED_COLUMNS = (8, 9, 15, 20)


def with_share(counts: Sequence[int]) -> List[int]:
    sound, missing = counts[0], counts[1]
    return list(counts) + [missing * 1_000_000 // (sound + missing) if sound + missing else 0]


def sheet_counts(log: bytes) -> List[int]:
    counts = [0] * 9
    try:
        for event in read_log(log):
            if event.report is not None:
                counts[0] += 1
                counts[1] += event.report.missing
                for column, mark in ((6, SOUND), (7, DAMAGED), (8, MISSING)):
                    counts[column] += event.runs.marks.count(mark)
            elif event.word == "refused":
                counts[2 + REFUSED_COLUMNS.index(event.number)] += 1
    except Refused:
        pass
    return counts


def sheet(octets: bytes, lengths: Sequence[int], room: int) -> List[List[int]]:
    """11.7: a row of ten for each log, and the row for all at the end."""
    refuse(18, len(lengths) > 4096)
    refuse(5, sum(lengths) != len(octets) or room != 10 * len(lengths))
    rows, start = [], 0
    for length in lengths:
        rows.append(sheet_counts(octets[start : start + length]))
        start += length
    totals = [sum(row[column] for row in rows) for column in range(9)]
    refuse(19, max(totals) > LIMIT)
    return [with_share(row) for row in rows] + [with_share(totals)]


NAMES = "log,sound,missing,refused 8,refused 9,refused 15,refused 20,marked 0,marked 1,marked 2,missing per million"


def sheet_lines(logs: Sequence[bytes]) -> List[str]:
    try:
        rows = sheet(b"".join(logs), [len(log) for log in logs], 10 * len(logs))
    except Refused as refusal:
        return [f"sheet refused {refusal.number}"]
    names = [str(k) for k in range(len(logs))] + ["all"]
    return [NAMES] + [",".join([name, *map(str, row)]) for name, row in zip(names, rows)]
