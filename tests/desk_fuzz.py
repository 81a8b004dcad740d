#!/usr/bin/env python3
"""Spoiled logs through the desk tool, built to notice a wrong use of memory.

usage: desk_fuzz.py PROGRAM [COUNT [SEED]]

Each log is a whole one in some format, with octets changed, taken out or put in. Every call must end with 0, 1 or 2 and say
nothing of memory; the marks that `receive` writes must be as many as the records that `list` shows call for; and `list` must
print what linelist does, where that is built. Spoiled sheets go through `add`, spoiled sound files, with chunks beside their
sound too, through `send`, and spoiled sidecars through `receive`; they may end with 3 too.
"""
import json
import os
import pathlib
import random
import subprocess
import sys
import tempfile
import wave

from desk_archive_made import bext, cues, info, sound_file

if len(sys.argv) < 2:
    sys.exit(__doc__)
program = str(pathlib.Path(sys.argv[1]).resolve())
count = int(sys.argv[2]) if len(sys.argv) > 2 else 200
chance = random.Random(int(sys.argv[3]) if len(sys.argv) > 3 else 1)
linelist = pathlib.Path('target/bin/linelist').resolve()
os.environ['ASAN_OPTIONS'] = 'detect_leaks=0'
FORMATS = ['02', '04', '06', '08', '13', '15', '17', '43', '45', '47', '52', '54', '56', '5A']


def fail(words):
    sys.exit(f'desk: {words}')


def run(*words, may=(0, 1, 2), given=b''):
    done = subprocess.run([program, *words], input=given, capture_output=True, check=False)
    said = done.stderr.decode(errors='replace')
    if done.returncode not in may or 'Sanitizer' in said or 'runtime error' in said:
        fail(f'{" ".join(words)} ended with {done.returncode}\n{said}')
    return done


def whole_log(folder):
    channels = chance.choice([1, 2, 3, 5, 8])
    octets = chance.choice([2, 3, 4])
    with wave.open(str(folder / 'in.wav'), 'wb') as sound:
        sound.setparams((channels, octets, 48000, 0, 'NONE', ''))
        sound.writeframes(chance.randbytes(channels * octets * chance.randrange(2000)))
    words = ['send', '-q', '--cut', '--force', str(folder / 'in.wav'), str(folder / 'in.log')]
    format_ = chance.choice(FORMATS)
    words += ['--format', format_, '--order', chance.choice('01'), '--number', str(chance.randrange(16))]
    if format_[0] in '45' and chance.randrange(2):
        words += ['--origin', 'ABCD']
    run(*words, may=(0,))
    return (folder / 'in.log').read_bytes()


def spoiled(log, most=None, kinds=6):
    log = bytearray(log)
    for _ in range(chance.choice([0, 1, 3, 30])):
        at = chance.randrange(min(most or len(log), len(log))) if chance.randrange(9) else chance.randrange(min(3, len(log)))
        kind = chance.randrange(kinds)
        if kind == 0:
            log[at] = chance.randrange(256)
        elif kind == 1:
            log[at] ^= 1 << chance.randrange(8)
        elif kind == 2:
            del log[at:at + chance.choice([1, 48, 49])]
        elif kind == 3:
            log[at:at] = bytes(chance.choice([1, 48, 49]))
        else:  # whole records taken out
            at = 3 + at // 49 * 49
            del log[at:at + 49 * chance.randrange(1, 20)]
        if not log:
            break
    return bytes(log)


def salvaged(folder, name, listed, sheet, answer):
    """What is salvaged has the sound records and no other, and the figures and the answer of the log itself."""
    new = str(folder / 'new.log')
    run('salvage', '--force', name, new)
    kept = run('list', new, may=(0,)).stdout.decode().splitlines()
    words = [line.split() for line in listed.splitlines()]
    if [line.split()[1:] for line in kept[1:-1]] != [line[1:] for line in words[1:-1] if line[1] == 'sound']:
        fail(f'salvage kept other records than are sound of\n{listed}')
    old, new_sheet = (text.splitlines()[1].split(',') for text in (sheet, run('sheet', new).stdout.decode()))
    if old[1:3] + old[7:11] != new_sheet[1:3] + new_sheet[7:11] or old[1] != words[-1][1] or old[2] != words[-1][3]:
        fail(f'{sheet} of\n{listed}')
    if sum(map(int, old[3:7])) != int(words[-1][5]) or answer[:3] != run('anything', new).stdout.decode()[:3]:
        fail(f'{sheet} and {answer} of\n{listed}')


def at_length(folder, name, marks, channels, times):
    """Ended at some length, and with some bits: the same marks up to there, or all of them."""
    whole = len(marks) // channels
    length = chance.choice([chance.randrange(whole + 2 * times), max(0, whole - chance.randrange(times))])
    some = folder / 'some.marks'
    some.unlink(missing_ok=True)
    kind = chance.choice(['wav', 'w64', 'aiff', 'flac'])
    more = chance.choice([['--bits', chance.choice(['16', '24', '32'])], ['--cut', chance.choice(['16', '24', '32'])]])
    may = (0, 1, 2) if kind != 'flac' else (0, 1, 2, 3)  # which has at most 24 bits
    done = run('receive', '-q', '--force', name, str(folder / f'some.{kind}'), '--marks', str(some), '--length', str(length),
               '--rate', '44100', *more, may=may)
    if not some.exists():
        if done.returncode < 2 or (kind != 'flac' and b'drops them' not in done.stderr):
            fail(f'nothing was received with {more}: {done.stderr!r}')
    elif some.read_bytes() != marks[:length * channels if whole - times < length <= whole else None]:
        fail(f'{len(some.read_bytes())} marks up to {length} of {whole} times {channels}')


def try_log(folder, log):
    name = str(folder / 'spoiled.log')
    pathlib.Path(name).write_bytes(log)
    listed = run('list', name).stdout.decode()
    if linelist.exists():
        expected = subprocess.run([linelist], input=log, capture_output=True, check=True).stdout.decode()
        if listed != expected:
            fail(f'list prints\n{listed}and linelist\n{expected}')
    run('labels', name)
    sheet = run('sheet', name).stdout.decode()
    answer = run('anything', name).stdout.decode()
    if listed.startswith('log refused'):
        run('salvage', name, str(folder / 'no.log'), may=(2,))
    else:
        salvaged(folder, name, listed, sheet, answer)
    run('picture', '-q', '--force', name, str(folder / 'out.png'))
    marks = folder / 'out.marks'
    run('receive', '-q', '--force', name, str(folder / 'out.wav'), '--marks', str(marks), '--labels', str(folder / 'out.txt'))
    lines = listed.splitlines()
    if not lines[0].startswith('format'):
        return
    octet, channels, _ = map(int, lines[0].split()[1:])
    bits = 4 * (octet % 16) + 4 * (octet // 64) + 4 * (octet // 16 % 4)
    entries = channels * (48 * 8 // bits // channels)
    _, sound, _, missing, *_ = lines[-1].split()
    told = marks.read_bytes()
    at_length(folder, name, told, channels, entries // channels)
    if len(told) != (int(sound) + int(missing)) * entries or told.count(2) != int(missing) * entries:
        fail(f'{len(told)} marks, {told.count(2)} of them missing, of\n{listed}')


def try_sheet(folder):
    """A sheet of both kinds, with octets changed, taken out and put in."""
    name, odd = folder / 'spoiled.csv', folder / 'a "b",\n.log'
    odd.write_bytes((folder / 'in.log').read_bytes())
    logs = [str(folder / 'spoiled.log'), str(odd), str(folder / 'nosuch.log')]
    sheet = run('sheet', '-q', *logs, may=(3,)).stdout + run('sheet', '-q', '--plain', *logs[:2]).stdout
    name.write_bytes(spoiled(sheet, kinds=4))
    added = run('add', str(name), may=(0, 2, 3))
    if added.returncode < 3 and run('add', '-', may=(0, 2), given=added.stdout).stdout != added.stdout:
        fail(f'the sheet of {name.read_bytes()} is another one when it is read back')


def try_sound(folder):
    """A sound file that is spoiled at its start, by its name and through a pipe."""
    kind = chance.choice(['wav', 'rf64', 'w64', 'aiff', 'flac'])
    whole = folder / f'in.{kind}'
    if run('receive', '-q', '--force', str(folder / 'in.log'), str(whole), may=(0, 2, 3, 64)).returncode != 0:  # 64: 40 bits as FLAC
        return  # a format that such a file doesn't hold
    name = folder / f'spoiled.{kind}'
    name.write_bytes(spoiled(whole.read_bytes(), most=120, kinds=4))
    words = ['--cut', '--force', '--format', '06', str(folder / 'new.log')]
    by_name = run('send', '-q', str(name), *words, may=(0, 2, 3))
    by_pipe = run('send', '-q', '-', *words, may=(0, 2, 3), given=name.read_bytes())
    if by_name.returncode != by_pipe.returncode:
        fail(f'{name.read_bytes()[:120]} ends with {by_name.returncode}, and through a pipe with {by_pipe.returncode}')


def sidecar_of(folder):
    """A log and a sidecar of a sound file whose chunks are spoiled; None where it can't be sent."""
    name, log, kept = folder / chance.choice(['beside.wav', 'beside.rf64']), str(folder / 'beside.log'), folder / 'beside.json'
    points = [(chance.randrange(1 << 32), chance.randbytes(at).replace(b'\0', b'x')) for at in range(chance.randrange(9))]
    where = chance.choice(['before', 'after'])
    sound_file(name, kind=b'RF64' if name.suffix == '.rf64' else b'RIFF', frames=10 + chance.randrange(99),
               channels=chance.choice([1, 2]), **{where: bext(chance.randbytes(chance.randrange(256))) + info() + cues(points)})
    if chance.randrange(2):
        name.write_bytes(spoiled(name.read_bytes(), kinds=4))
    done = run('send', '--cut', '--force', str(name), log, '--sidecar', str(kept), may=(0, 2, 3))
    if done.returncode == 0:
        json.loads(kept.read_text(encoding='utf-8'))
    return (log, kept) if done.returncode == 0 else None


def try_sidecar(folder):
    """A sidecar with octets changed, taken out and put in, or with other values."""
    made = sidecar_of(folder)
    if made is None:
        return
    log, kept = made
    text = kept.read_bytes()
    if chance.randrange(2):
        text = spoiled(text, kinds=4)
    elif chance.randrange(2):
        values = json.loads(text)
        others = [0, -1, 1, 2, 1 << 31, 1 << 62, 'x', None, [], {}, [{}], 1.5, {'at': 0}, True]
        values[chance.choice(list(values))] = chance.choice(others)
        text = json.dumps(values).encode()
    kept.write_bytes(text)
    out = folder / chance.choice(['beside-out.wav', 'beside-out.rf64', 'beside-out.flac', 'beside-out.aiff', 'beside-out.w64'])
    out.unlink(missing_ok=True)
    more = ['--cues'] if out.suffix in ('.wav', '.rf64') else []
    done = run('receive', log, str(out), '--sidecar', str(kept), '--json', '--sum', '--strict', *more, may=(0, 1, 2, 3))
    told = json.loads(done.stdout)
    if told['status'] != done.returncode or out.exists() != (done.returncode < 2):
        fail(f'{text!r}: {told}, {done.stderr!r}')
    if b"isn't a sidecar" in done.stderr and done.returncode != 2:
        fail(f'{text!r} ended with {done.returncode}')


with tempfile.TemporaryDirectory() as place:
    for _ in range(count):
        try_log(pathlib.Path(place), spoiled(whole_log(pathlib.Path(place))))
        try_sheet(pathlib.Path(place))
        try_sound(pathlib.Path(place))
        try_sidecar(pathlib.Path(place))
print(f'desk: {count} spoiled logs, sheets, sound files and sidecars, no fault')
