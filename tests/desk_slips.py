#!/usr/bin/env python3
"""The whole logs of tests/vectors/slips.txt through the desk tool: what second numbers tell of, in `receive`, `verify`, `list`.

usage: desk_slips.py PROGRAM FOLDER

FOLDER is tests/vectors. Each log's samples and marks, with the cells that were told of put in, are those of the vectors; so are the
lines `k slip n` of the list, and the statuses by --strict.
"""
import hashlib
import pathlib
import re
import subprocess
import sys
import tempfile

from desk_made import read_wave, wave
from third_reading import shape_of

FILE_BITS = {8: 16, 12: 16, 16: 16, 20: 24, 24: 24, 28: 32, 32: 32, 40: 64}


def ran(*words):
    done = subprocess.run([PROGRAM, *map(str, words)], capture_output=True, check=False)
    return done.returncode, done.stdout.decode(), done.stderr.decode()


def numbers(field):
    return [] if field == '-' else [int(number) for number in field.split(',')]


def spread(field):
    marks = []
    for part in [] if field == '-' else field.split(','):
        mark, times = part.split('*')
        marks += [int(mark)] * int(times)
    return marks


def digest(bits, sound):
    """Of the samples as the cells have them: numbers without a sign."""
    if bits == 40:
        samples = [round(value * 2**39) % 2**40 for value in sound]
    else:
        samples = [(value >> (FILE_BITS[bits] - bits)) % 2**bits for value in sound]
    return hashlib.sha256(','.join(map(str, samples)).encode()).hexdigest()[:16]


def slip_case(log, told, waiting, marks, samples):
    log, told, waiting, marks = bytes.fromhex(log), numbers(told), numbers(waiting), spread(marks)
    pairs = list(zip(told[::2], told[1::2]))
    name, wav, kept = PLACE / 'in.log', PLACE / 'out.wav', PLACE / 'out.marks'
    name.write_bytes(log)
    status, _, said = ran('receive', name, wav, '-m', kept, '-r', 48000, '--strict', '-F')
    assert list(kept.read_bytes()) == marks, 'marks'
    bits = shape_of(log[0]).bits
    assert digest(bits, read_wave(wav)[3]) == samples, 'samples'
    more = re.search(r'(\d+) more in (\d+) places? by second numbers', said)
    assert (more is not None) == bool(pairs), said
    if more:
        assert (int(more[1]), int(more[2])) == (sum(cells for _, cells in pairs), len(pairs)), said
    held = 'is out of step' in said
    assert not held or waiting, 'a cell is held that none waits for'
    listed = ran('list', name, '--slips', '--strict')
    lines = listed[1].splitlines()
    assert [line for line in lines if ' slip ' in line] == [f'{record} slip {cells}' for record, cells in pairs], 'list --slips'
    plain = ran('list', name)
    assert [line for line in lines if ' slip ' not in line] == plain[1].splitlines(), 'the other lines of list --slips'
    torn = (len(log) - 3) % 49 != 0
    flawed = bool(pairs) or held or ' 0 missing 0 refused' not in lines[-1] or 1 in marks
    assert status == (2 if torn else 1 if flawed else 0), (status, said)
    assert listed[0] == (2 if torn else 1 if bool(pairs) or held or ' 0 missing 0 refused' not in lines[-1] else 0), listed
    without = ran('receive', name, wav, '-m', kept, '-r', 48000, '--no-slips', '-F')
    assert 'second numbers' not in without[2] and len(kept.read_bytes()) == len(marks) - sum(
        cells for _, cells in pairs) * (shape_of(log[0]).slots // log[1] * log[1]), '--no-slips'


def cut_out():
    """64 cells cut out of a log: told, the file as long as the one sent, and every sample behind them in its place."""
    sound = [(at * 2654435761 >> 3) % 2**24 - 2**23 for at in range(2 * 6 * 1000)]
    wave(PLACE / 'sent.wav', sound, 2, 24, 48000)
    assert ran('send', PLACE / 'sent.wav', PLACE / 'whole.log', '--blocks', '-q')[0] == 0
    log = (PLACE / 'whole.log').read_bytes()
    first, past = 3 + 500 * 49, 3 + 564 * 49
    (PLACE / 'cut.log').write_bytes(log[:first] + log[past:])
    status, _, said = ran('receive', PLACE / 'cut.log', PLACE / 'came.wav', '--strict')
    assert status == 1 and 'cells: 936 sound, 0 missing in 0 places, 64 more in 1 place by second numbers, 0 refused' in said, said
    assert read_wave(PLACE / 'came.wav')[3] == sound[:6000] + [0] * 768 + sound[6768:]
    said = ran('verify', PLACE / 'sent.wav', PLACE / 'cut.log')
    assert said[0] == 1 and 'no: 11232 of 12000 samples agree; 0 different, 768 missing' in said[1], said
    assert ran('list', PLACE / 'cut.log', '--strict')[0] == 1 and ran('list', PLACE / 'cut.log')[0] == 0
    assert ran('receive', PLACE / 'whole.log', PLACE / 'came.wav', '--strict', '-F', '-q')[0] == 0
    assert ran('picture', PLACE / 'cut.log', PLACE / 'cut.png', '-q')[0] == 0
    blocks = re.findall(r', (\d+) blocks?: ', ran('labels', PLACE / 'cut.log')[1])
    assert sum(map(int, blocks)) == 2 * (6000 // 192 - 2 - 1), blocks  # those that the silence touches aren't whole


def main():
    cut_out()
    count = told = 0
    for line in (FOLDER / 'slips.txt').read_text(encoding='ascii').splitlines():
        fields = line.split(' ')
        slip_case(fields[1], fields[3], fields[5], fields[7], fields[8])
        count += 1
        told += fields[3] != '-'
    print(f'desk: {count} logs with outages are received and listed with what their second numbers tell, {told} of them with slips')


PROGRAM, FOLDER = sys.argv[1], pathlib.Path(sys.argv[2])
with tempfile.TemporaryDirectory() as place:
    PLACE = pathlib.Path(place)
    main()
