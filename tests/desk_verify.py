#!/usr/bin/env python3
"""Whether a spoiled log carries a file: the desk tool's `verify` against the third reading (tests/third_reading.py).

usage: desk_verify.py PROGRAM [COUNT [SEED]]

The logs are those of tests/desk_third_made.py. The file has the samples that the reading takes from the log, with some of them
changed, left out or put in, or another number of channels. Verdict, counts, first difference, gaps and status must be what the
reading says.
"""
import json
import os
import pathlib
import random
import subprocess
import sys
import tempfile

from desk_made import wave
from desk_third import read, track
from desk_third_made import spoiled_log
from third_reading import DAMAGED, MISSING

BITS = {8: 16, 12: 16, 16: 16, 20: 24, 24: 24, 28: 32, 32: 32, 40: 32}


def made_file(chance, case):
    """Samples of a file of whole numbers, its bits, its channels, and the sample at which the log begins."""
    shape, channels = case.setting.shape, case.setting.channels
    bits = BITS[shape.bits]
    values = [value - (1 << shape.bits) if value >> (shape.bits - 1) else value for value in case.handed.samples]
    samples = [value << bits - shape.bits if shape.bits <= bits else value >> shape.bits - bits for value in values]
    past = len(samples) // channels
    kind = chance.randrange(8)
    if kind == 1 and samples:  # some other samples
        for _ in range(chance.choice([1, 1, 3, 50])):
            samples[chance.randrange(len(samples))] ^= 1 << chance.randrange(bits - 1)
    elif kind == 2:  # it ends earlier: in the last cell, or anywhere
        past = max(0, past - chance.randrange(case.setting.times)) if chance.randrange(2) else chance.randrange(past + 1)
    elif kind == 3:  # it goes on
        samples += [chance.randrange(-5, 5) for _ in range(channels * chance.randrange(1, 20))]
        past = len(samples) // channels
    elif kind == 4 and past > 0:  # the last samples of both are silence, and the file may end there
        at = chance.randrange(past)
        while past > at and not any(samples[channels * (past - 1):channels * past]):
            past -= 1
    elif kind == 5:  # another number of channels
        return samples[:len(samples) // (channels + 1) * (channels + 1)], bits, channels + 1, 0
    before = [chance.randrange(-9, 9) for _ in range(channels * chance.choice([0, 0, 0, 1, 5000]))]
    return before + samples[:past * channels], bits, channels, len(before) // channels


def expected(case, samples, bits, start, cut):
    """What the issue says, by the reading's samples and marks."""
    shape, channels, times = case.setting.shape, case.setting.channels, case.setting.times
    ours = samples[start * channels:]
    told = {'agree': 0, 'differ': 0, 'missing': 0, 'ends_before': 0, 'goes_on': 0, 'goes_on_with_sound': False}
    first = None
    for at, (value, mark) in enumerate(zip(case.handed.samples, case.handed.marks)):
        signed = (value - (1 << shape.bits) if value >> (shape.bits - 1) else value) << 40 - shape.bits
        if at >= len(ours):
            told['goes_on_with_sound'] |= signed != 0 or mark == MISSING
            continue
        theirs = ours[at] << 40 - bits
        if cut:
            theirs = theirs >> 40 - shape.bits << 40 - shape.bits
        word = 'missing' if mark == MISSING else 'agree' if signed == theirs else 'differ'
        told[word] += 1
        if word == 'differ' and first is None:
            first = {'channel': at % channels + 1, 'sample': start + at // channels}
    handed = len(case.handed.samples)
    told['ends_before'] = max(0, len(ours) - handed) // channels
    told['goes_on'] = max(0, handed - len(ours)) // channels
    told['samples'], told['damaged'] = len(ours), case.handed.marks.count(DAMAGED)
    told['carries'] = told['agree'] == len(ours) and told['goes_on'] < times and not told['goes_on_with_sound']
    if first:
        told['first_difference'] = first
    return told


def run(program, *words):
    done = subprocess.run([program, 'verify', '--no-slips', *words], capture_output=True, check=False)
    assert b'Sanitizer' not in done.stderr and b'runtime error' not in done.stderr, done.stderr.decode()
    return done


def try_log(program, folder, chance, number, tally):
    log = spoiled_log(chance, number)
    (folder / 'in.log').write_bytes(log)
    case, name = read(log), str(folder / 'in.wav')
    if case.setting is None:
        wave(name, [0] * 10, 1, 16, 48000)
        assert run(program, name, str(folder / 'in.log')).returncode == 2, 'a refused header'
        tally['refused'] += 1
        return
    samples, bits, channels, start = made_file(chance, case)
    wave(name, samples, channels, bits, chance.choice([8000, 48000, 44100]))
    cut = chance.choice([[], ['--cut']])
    call = [name, str(folder / 'in.log'), *cut, *(['--from', str(start)] if start else [])]
    plain, told = run(program, *call), run(program, *call, '--json')
    document = json.loads(told.stdout)
    assert document['status'] == told.returncode == plain.returncode
    if channels != case.setting.channels:
        assert told.returncode == 1 and document['carries'] is False and plain.stdout.startswith(b'no: the log has')
        tally['other channels'] += 1
        return
    wanted = expected(case, samples, bits, start, bool(cut))
    for key, value in wanted.items():
        assert document[key] == value, f'{key} is {document[key]}, and by the reading {value}'
    assert ('first_difference' in document) == ('first_difference' in wanted)
    status = 2 if case.fault else int(not wanted['carries'])
    assert told.returncode == status, f'ended with {told.returncode}, and by the reading with {status}'
    rate = int.from_bytes(pathlib.Path(name).read_bytes()[24:28], 'little')
    lines = [line.split('\t')[2].split(': ')[0] for line in track(case, case.setting, rate)]
    said = [line for line in plain.stdout.decode().split('\n') if '\t' in line]
    assert [line.split('\t')[2].split(': ')[0] for line in said] == lines
    if start == 0:
        assert said == track(case, case.setting, rate), (said, track(case, case.setting, rate))
    assert plain.stdout.decode().split('\n')[-2].startswith('yes: ' if wanted['carries'] else 'no: ')
    tally['broken' if case.fault else 'carried' if wanted['carries'] else 'not carried'] += 1


def main(program, count, seed):
    tally = {key: 0 for key in ('carried', 'not carried', 'broken', 'refused', 'other channels')}
    with tempfile.TemporaryDirectory() as place:
        for number in range(count):
            chance = random.Random(seed * 1_000_003 + number)
            try:
                try_log(program, pathlib.Path(place), chance, number, tally)
            except AssertionError as fault:
                sys.exit(f'desk: verify of log {number} of seed {seed}: {fault}')
    assert count < 200 or all(tally.values()), tally
    told = ', '.join(f'{n} {name}' for name, n in tally.items())
    print(f'desk: verify of {count} spoiled logs as the third reading has it ({told})')


if __name__ == '__main__':
    if not 2 <= len(sys.argv) <= 4:
        sys.exit(__doc__)
    os.environ['ASAN_OPTIONS'] = 'detect_leaks=0'
    NUMBERS = [int(word) for word in sys.argv[2:]] + [300, 1][len(sys.argv) - 2:]
    main(str(pathlib.Path(sys.argv[1]).resolve()), *NUMBERS)
