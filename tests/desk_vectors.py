#!/usr/bin/env python3
"""The vectors of requests 14, 7, 9 and 3 through the desk tool: list, anything, salvage, sheet and add.

usage: desk_vectors.py PROGRAM FOLDER

FOLDER is tests/vectors. A file that isn't there is left out. Cases whose answer is about lent runs (5 and 21) are left out
too: the tool lends enough. Every sheet is also made in two parts, which `add` joins.
"""
import pathlib
import subprocess
import sys
import tempfile

NAMES = 'log,sound,missing,refused 8,refused 9,refused 15,refused 20,marked 0,marked 1,marked 2,missing per million'
FAULT = (11, 12)  # a framing fault after the header


def ran(*words):
    done = subprocess.run([PROGRAM, *map(str, words)], capture_output=True, check=False)
    return done.returncode, done.stdout.decode(), done.stderr.decode()


def octets(field):
    return b'' if field == '-' else bytes.fromhex(field)


def numbers(field):
    return [] if field == '-' else [int(number) for number in field.split(',')]


def put(name, data):
    (PLACE / name).write_bytes(data)
    return PLACE / name


def broken(log):
    """Whether a log with a good header has a framing fault."""
    return (len(log) - 3) % 49 != 0 or any(indication > 1 for indication in log[3::49])


def list_case(log, _, text):
    LISTS.append((put(f'list{len(LISTS)}', octets(log)), octets(text).decode()))


def lists():
    """All lists at once, each under its file's name."""
    want = ''.join(f'{name}:\n{text}' for name, text in LISTS)
    assert not LISTS or ran('list', *(name for name, _ in LISTS))[:2] == (2, want)


def anything_case(log, _, refusal, yes, number):
    log = octets(log)
    status, out, said = ran('anything', put('log', log))
    if refusal != '0':
        assert (status, out) == (2, f'log refused {refusal}\n') and f'refused {refusal}: ' in said
    elif yes == '1':
        assert (status, out, said) == (0, f'yes {number}\n', '')
    else:
        assert (status, out) == (2 if broken(log) else 1, f'no {number}\n')


def salvage_case(log, _, entries, __, refusal, out, left, size, count, cut):
    if refusal == '21':
        return
    log = octets(log)
    new = PLACE / 'new'
    new.unlink(missing_ok=True)
    status, printed, said = ran('salvage', put('log', log), new)
    assert printed == ''
    if refusal != '0':
        assert status == 2 and not new.exists() and f'refused {refusal}: ' in said
        return
    size, count, cut = int(size), int(count), int(cut)
    assert new.read_bytes() == octets(out)[:size] and status == (2 if cut else 0)
    pairs = numbers(left)[:2 * count]
    lines = [f'{pairs[at]} refused {pairs[at + 1]}' for at in range(0, len(pairs), 2)]
    lines.append(f'end {(size - 3) // 49} kept {count} left out {cut} cut')
    assert said.splitlines()[:len(lines)] == lines, said


def sheet_case(run, lengths, _, __, refusal, rows, totals):
    if refusal == '5':
        return
    run, names, at = octets(run), [], 0
    for number, length in enumerate(numbers(lengths)):
        names.append(put(f'log{number}', run[at:at + length]))
        at += length
    if not names:
        return
    status, out, _ = ran('sheet', '--plain', *names)
    if refusal != '0':
        assert (status, out) == (2, f'sheet refused {refusal}\n')
        return
    rows = numbers(rows)
    lines = [NAMES] + [','.join(map(str, [at // 10, *rows[at:at + 10]])) for at in range(0, len(rows), 10)]
    lines.append(','.join(['all', totals]))
    assert out.splitlines() == lines
    middle = len(names) // 2
    parts = [put(f'part{number}', ran('sheet', '-q', *part)[1].encode())
             for number, part in enumerate((names[:middle], names[middle:])) if part]
    state, added, _ = ran('add', *parts)
    assert (state, added) == ran('sheet', '-q', *names)[:2] and state == status
    assert [line.rsplit(',', 2)[0] for line in added.splitlines()] == lines


CASES = {'linelist': list_case, 'anything': anything_case, 'salvage': salvage_case, 'sheet': sheet_case}
LISTS = []
PROGRAM = str(pathlib.Path(sys.argv[1]).resolve())
with tempfile.TemporaryDirectory() as place:
    PLACE = pathlib.Path(place)
    for kind, case in CASES.items():
        vectors = pathlib.Path(sys.argv[2]) / f'{kind}.txt'
        if not vectors.exists():
            continue
        tried = 0
        for line in vectors.read_text().splitlines():
            words = line.split()
            if words and words[0] == kind:
                case(*words[1:])
                tried += 1
        if kind == 'linelist':
            lists()
        print(f'desk: {tried} vectors of {kind}')
