#!/usr/bin/env python3
"""The third reading (tests/third_reading.py and beside it) held against the vectors.

usage: third_reading_vectors.py FOLDER [KIND..]

FOLDER is tests/vectors; its README has the fields of each kind. Without a kind all are tried, and there must be a case for each.
"""

import pathlib
import sys
from typing import Callable, Dict, List, Sequence, Tuple

import third_beside as beside
import third_log
import third_port
import third_reading as third
import third_slips
from third_reading import Refused


def octets(field: str) -> bytes:
    return b"" if field == "-" else bytes.fromhex(field)


def numbers(field: str) -> List[int]:
    return [] if field == "-" else [int(number) for number in field.split(",")]


def run(values: Sequence[int]) -> str:
    return ",".join(map(str, values)) or "-"


def text(data: bytes) -> str:
    return data.hex() or "-"


def words(*fields: object) -> str:
    return " ".join(map(str, fields))


def answer(ask: Callable[[], str], otherwise: str) -> str:
    """What a call answers: 0 and its results, or its refusal and what it leaves then."""
    try:
        return "0 " + ask()
    except Refused as refusal:
        return f"{refusal.number} {otherwise}"


def setting_of(state: Sequence[int]) -> third.Setting:
    return third.Setting(state[0], state[1], state[2])


def sender_of(field: str) -> third.Sender:
    state = numbers(field)
    return third.Sender(setting_of(state), state[3], state[4] != 0, state[5], state[6] != 0)


def receiver_of(field: str) -> third.Receiver:
    state = numbers(field)
    return third.Receiver(setting_of(state), state[3] != 0, state[4], state[5])


def sender_text(state: third.Sender) -> str:
    return run([*state.setting, state.number, int(state.wanted), state.second, int(state.sent)])


def receiver_text(state: third.Receiver) -> str:
    return run([*state.setting, int(state.started), state.last, state.placed])


def format_case(octet: str) -> str:
    def ask() -> str:
        shape = third.shape_of(int(octet))
        return words(shape.bits, 4 * shape.ancillary, 4 * shape.overhead, shape.slots)

    return answer(ask, "0 0 0 0")


def sender_open_case(octet: str, channels: str, order: str, number: str, wanted: str, second: str) -> str:
    def ask() -> str:
        setting = third.Setting(int(octet), int(channels), int(order))
        state = third.Sender(setting, int(number), int(wanted) != 0, int(second))
        third.check_sender(state)
        return sender_text(state)

    return answer(ask, "0,0,0,0,0,0,0")


def receiver_open_case(octet: str, channels: str, order: str) -> str:
    def ask() -> str:
        state = third.Receiver(third.Setting(int(octet), int(channels), int(order)))
        third.check_receiver(state)
        return receiver_text(state)

    return answer(ask, "0,0,0,0,0,0")


def send_case(state: str, indication: str, samples: str, ancillary: str, cell: str) -> str:
    def ask() -> str:
        after, new = third.send(sender_of(state), indication == "1", numbers(samples), numbers(ancillary), len(octets(cell)))
        return words(sender_text(after), text(new))

    return answer(ask, words(state, cell))


def receive_case(state: str, cell: str, indication: str, samples: str, ancillary: str, marks: str) -> str:
    runs = third.Runs(numbers(samples), numbers(ancillary), numbers(marks))

    def ask() -> str:
        after, report = third.receive(receiver_of(state), octets(cell), indication == "1", runs)
        return words(receiver_text(after), *map(run, runs), *report[:3], int(report.indication))

    return answer(ask, words(state, *map(run, runs), 0, 0, 0, 0))


def line_case(octet: str, channels: str, order: str, arrivals: str) -> str:
    setting = third.Setting(int(octet), int(channels), int(order))
    state, runs, answers = third.Receiver(setting), third.runs_for(setting), []
    handed: Tuple[List[int], List[int], List[int]] = ([], [], [])
    records = octets(arrivals)
    for place in range(0, len(records), 49):
        try:
            state, report = third.receive(state, records[place + 1 : place + 49], records[place] == 1, runs)
        except Refused as refusal:
            answers += [refusal.number, 0, 0, 0]
            continue
        answers += [0, *report[:3]]
        for whole, part in zip(handed, runs):
            whole += part[: (report.missing + 1) * setting.entries]
    return words(run(answers), receiver_text(state), *map(run, handed))


ANSWERS = {"": 0, "doesn't fit": 1, "fits": 2, "none": 3}


def status_step_case(bits: str, block: str, ancillary: str, mark: str) -> str:
    def ask() -> str:
        after, word, handed = third.status(third.Block(octets(block), int(bits)), int(ancillary), int(mark))
        return words(after.bits, text(after.octets), ANSWERS[word], text(handed))

    return answer(ask, words(bits, block, 0, text(bytes(24))))


def status_run_case(bits: str, block: str, ancillary: str, marks: str, start: str, step: str) -> str:
    def ask() -> str:
        begun = third.Block(octets(block), int(bits))
        after, word, handed, following = third.status_run(begun, octets(ancillary), octets(marks), int(start), int(step))
        return words(after.bits, text(after.octets), ANSWERS[word], text(handed), following)

    return answer(ask, words(bits, block, 0, text(bytes(24)), 0))


def check_character_case(block: str) -> str:
    return str(third.check_character(octets(block)))


def read_header_case(log: str) -> str:
    def ask() -> str:
        setting, place = third_log.log_header(octets(log))
        return words(place, *setting)

    return answer(ask, "0 0 0 0")


def read_record_case(log: str, place: str) -> str:
    def ask() -> str:
        record = third_log.record_at(octets(log), int(place))
        return words(0, 0, 0, place) if record is None else words(1, int(record[0]), int(place) + 1, int(place) + 49)

    return answer(ask, "0 0 0 0")


def judge_log_case(state: str, log: str, place: str, reports: str) -> str:
    def ask() -> str:
        room = octets(reports)
        after, judged, there, why = third_log.judge_log(receiver_of(state), octets(log), int(place), len(room))
        return words(receiver_text(after), text(judged + room[len(judged) :]), there, len(judged) // 5, why)

    return answer(ask, words(state, reports, 0, 0, 0))


def receive_log_case(state: str, log: str, place: str, samples: str, ancillary: str, marks: str) -> str:
    runs = third.Runs(numbers(samples), list(octets(ancillary)), list(octets(marks)))

    def left() -> str:
        return words(run(runs.samples), text(bytes(runs.ancillary)), text(bytes(runs.marks)))

    def ask() -> str:
        after, counts = third_log.receive_log(receiver_of(state), octets(log), int(place), runs)
        return words(receiver_text(after), left(), *counts)

    return answer(ask, words(state, left(), *[0] * 9))


def send_log_case(state: str, indications: str, samples: str, ancillary: str, log: str, place: str) -> str:
    def ask() -> str:
        written = bytearray(octets(log))
        given = numbers(samples), numbers(ancillary)
        after, counts = third_log.send_log(sender_of(state), indications == "1", *given, written, int(place))
        return words(sender_text(after), text(bytes(written)), *counts)

    return answer(ask, words(state, log, 0, 0, 0, 0))


def linelist_case(log: str, limit: str = str(third.LIMIT)) -> str:
    return text("".join(line + "\n" for line in third_log.list_lines(octets(log), int(limit))).encode())


def anything_case(log: str) -> str:
    told = third_log.anything(octets(log)).split()
    return f"{told[2]} 0 0" if told[0] == "log" else f"0 {int(told[0] == 'yes')} {told[1]}"


def salvage_case(log: str, out: str, listed: str) -> str:
    room, entries = octets(out), numbers(listed)

    def ask() -> str:
        saved = third_log.salvage(octets(log), len(room), len(entries) // 2)
        pairs = [number for pair in saved.left_out for number in pair]
        after = saved.log + room[len(saved.log) :]
        return words(text(after), run(pairs + entries[len(pairs) :]), len(saved.log), len(saved.left_out), saved.cut)

    return answer(ask, words(out, listed, 0, 0, 0))


def sheet_case(logs: str, lengths: str, room: str) -> str:
    def ask() -> str:
        *rows, totals = third_log.sheet(octets(logs), numbers(lengths), int(room))
        return words(run([number for row in rows for number in row]), run(totals))

    return answer(ask, "- 0,0,0,0,0,0,0,0,0,0")


def aes3_import_case(preambles: str, subframes: str) -> str:
    def ask() -> str:
        first, second = numbers(subframes)
        entries = beside.from_cable(beside.Frame(octets(preambles).decode("latin-1"), (first, second)))
        return words(run([entry[0] for entry in entries]), run([entry[1] for entry in entries]))

    return answer(ask, "0,0 0,0")


def aes3_export_case(samples: str, ancillary: str) -> str:
    def ask() -> str:
        frame = beside.to_cable(list(zip(numbers(samples), numbers(ancillary))))
        return words(text(frame.preambles.encode()), run(frame.halves))

    return answer(ask, "0000 0,0")


def units_export_case(octet: str, channels: str, size: str, samples: str, ancillary: str, out: str) -> str:
    def ask() -> str:
        room = octets(out)
        units, full = beside.to_units(int(octet), int(channels), int(size), numbers(samples), numbers(ancillary), len(room))
        whole = b"".join(units)
        return words(text(whole + room[len(whole) :]), len(whole), full, len(units))

    return answer(ask, words(out, 0, 0, 0))


def unit_read_case(octet: str, channels: str, unit: str, samples: str, ancillary: str) -> str:
    given = (numbers(samples), numbers(ancillary))

    def ask() -> str:
        read = beside.from_unit(int(octet), int(channels), octets(unit), (len(given[0]), len(given[1])))
        return words(*(run(part + old[len(part) :]) for part, old in zip(read, given)), len(read[0]))

    return answer(ask, words(samples, ancillary, 0))


def circuits_check_case(octet: str, channels: str, frequency: str, shares: str, allowances: str) -> str:
    def ask() -> str:
        word, circuit = beside.check_shares(int(octet), int(channels), int(frequency), numbers(shares), numbers(allowances))
        return words(1 + ("yes", "share", "allowance", "sum").index(word), circuit)

    return answer(ask, "0 0")


def circuits_plan_case(octet: str, channels: str, shares: str) -> str:
    return answer(lambda: run(beside.plan(int(octet), int(channels), len(numbers(shares)))), shares)


def equipment_case(ports: str, message: str, room: str) -> str:
    def ask() -> str:
        lent = octets(room)
        done = third_port.equipment(octets(ports), octets(message), len(lent))
        after = done.answer + lent[len(done.answer) :]
        return words(text(done.ports), text(after), len(done.answer), *done[2:])

    return answer(ask, words(ports, room, 0, 0, 0, 0))


def controller_case(ports: str, message: str) -> str:
    return answer(lambda: text(third_port.controller(octets(ports), octets(message))), ports)


def port_settings_case(record: str) -> str:
    return answer(lambda: run(third_port.port_settings(octets(record))), "0,0,0")


def port_packing_case(octet: str, channels: str, order: str) -> str:
    return answer(lambda: str(third_port.port_packing(third.Setting(int(octet), int(channels), int(order)))), "0")


def slip_case(watch: str, report: str) -> str:
    missing, number, second, indication = numbers(report)

    def ask() -> str:
        after, what, cells = third_slips.step(third_slips.Watch(*numbers(watch)), third.Report(missing, number, second, indication != 0))
        return words(run(after), what, cells)

    return answer(ask, words(watch, 0, 0))


def slips_case(log: str) -> str:
    told = third_slips.story(octets(log))
    return words(run(told.told), run(told.alone), run(told.waiting), told.placed, ",".join(told.marks) or "-", told.digest)


CASES: Dict[str, Callable[..., str]] = {
    name[: -len("_case")]: case for name, case in list(globals().items()) if name.endswith("_case")
}
CASES["linelist_limit"] = linelist_case


def different(name: pathlib.Path, number: int, line: str) -> bool:
    """Whether the reading of a line's question is another than the line's answer; says so."""
    asked, _, told = line.partition(" => ")
    got = CASES[name.stem](*asked.split()[1:])
    if got != told:
        print(f"{name.name}:{number}: {asked[:300]}\n  vector  {told[:300]}\n  reading {got[:300]}", file=sys.stderr)
    return got != told


def main(folder: pathlib.Path, kinds: Sequence[str]) -> None:
    there = {name.stem for name in folder.glob("*.txt")}
    if there != set(CASES) or not set(kinds) <= there:
        sys.exit(f"third reading: {', '.join(sorted(there ^ set(CASES) | set(kinds) - there))}: vectors or a case are missing")
    tried, wrong = 0, 0
    for kind in sorted(kinds or there):
        lines = (folder / f"{kind}.txt").read_text(encoding="ascii").splitlines()
        wrong += sum(different(folder / f"{kind}.txt", number, line) for number, line in enumerate(lines, 1))
        tried += len(lines)
    print(f"third reading: {tried} vectors, {wrong} differences")
    sys.exit(1 if wrong or not tried else 0)


if __name__ == "__main__":
    if len(sys.argv) < 2:
        sys.exit(__doc__)
    main(pathlib.Path(sys.argv[1]), sys.argv[2:])
