#!/usr/bin/env python3
"""A line between two network namespaces for a while, with loss, repeats and delay, and every cell's place in what was recorded.

usage: line_soak.py PROGRAM SECONDS      as root; netem where the kernel has it, else tbf

Cell i of the reading has i, modulo 2^24, as its first sample.
"""
import os
import pathlib
import random
import re
import subprocess
import sys
import tempfile
import time
import wave

if len(sys.argv) != 3:
    sys.exit(__doc__)
PROGRAM, SECONDS = str(pathlib.Path(sys.argv[1]).resolve()), int(sys.argv[2])
CELLS = SECONDS * 8000
SPACES = [f'line{os.getpid()}{end}' for end in 'ab']


def run(*words):
    subprocess.run(words, check=True)


def make_line():
    """How the line is spoiled."""
    first, second = SPACES
    for space in SPACES:
        run('ip', 'netns', 'add', space)
    run('ip', '-n', first, 'link', 'add', 'line', 'type', 'veth', 'peer', 'name', 'line', 'netns', second)
    for at, space in enumerate(SPACES):
        run('ip', '-n', space, 'addr', 'add', f'10.52.0.{at + 1}/24', 'dev', 'line')
        run('ip', '-n', space, 'link', 'set', 'line', 'up')
        run('ip', '-n', space, 'link', 'set', 'lo', 'up')
    netem = 'netem delay 5ms 4ms loss 1% duplicate 1% reorder 10% 50%'
    tbf = 'tbf rate 4mbit burst 3000 limit 6000'
    for way in (netem, tbf):
        if subprocess.run(['tc', '-n', first, 'qdisc', 'add', 'dev', 'line', 'root', *way.split()], stderr=subprocess.DEVNULL,
                          check=False).returncode == 0:
            return way
    return 'nothing'


def make_log(folder):
    chance = random.Random(52)
    with wave.open(str(folder / 'soak.wav'), 'wb') as out:
        out.setparams((2, 3, 48000, 0, 'NONE', ''))
        for start in range(0, CELLS, 8000):
            sound = bytearray(chance.randbytes(36 * 8000))
            for at in range(8000):
                sound[36 * at:36 * at + 3] = ((start + at) % 2**24).to_bytes(3, 'little')
            out.writeframesraw(bytes(sound))
    run(PROGRAM, 'send', '-q', str(folder / 'soak.wav'), str(folder / 'soak.log'))
    (folder / 'soak.wav').unlink()


def see_log(log, last):
    """Every cell stands in its place from the log's first: how many there are, and the last one's number."""
    octets = log.read_bytes()
    assert (len(octets) - 3) % 49 == 0, log
    listed = subprocess.Popen([PROGRAM, 'list', str(log)], stdout=subprocess.PIPE, text=True)
    place, base, count = 0, None, 0
    for line in listed.stdout:
        words = line.split()
        if words[0] in ('format', 'end'):
            continue
        assert words[1] == 'sound', line
        start = 3 + 49 * int(words[0])
        index = int.from_bytes(octets[start + 1:start + 4], 'big')
        index += 2**24 * (last // 2**24) + (2**24 if index + 2**24 * (last // 2**24) < last else 0)
        place += int(words[2]) + 1
        base = index - place if base is None else base
        assert index - base == place and index > last, f'{log}: record {words[0]} is cell {index}, in place {place}'
        last, count = index, count + 1
    assert listed.wait() == 0
    return count, last


def main(folder):
    make_log(folder)
    way = make_line()
    enter = [['ip', 'netns', 'exec', space] for space in SPACES]
    words = ['record', str(folder / 'out.log'), '--listen', '10.52.0.2:6635', '--from', '10.52.0.1', '--channels', '2',
             '--idle', '3', '--pieces', '10000', '-q']
    taking = subprocess.Popen([*enter[1], PROGRAM, *words], stdout=subprocess.PIPE, stderr=open(folder / 'said', 'wb'), text=True)
    time.sleep(0.5)
    began = time.monotonic()
    done = subprocess.run([*enter[0], PROGRAM, 'play', '-q', str(folder / 'soak.log'), '--to', '10.52.0.2'], check=False)
    took = time.monotonic() - began
    line = taking.communicate()[0].strip()
    counts = dict(word.split('=') for word in line.split())
    assert done.returncode == 0, f'play ended with {done.returncode}'
    logs = sorted(folder.glob('out*.log'), key=lambda path: int((re.findall(r'\.(\d+)\.log', path.name) or ['1'])[0]))
    all_, last = 0, -1
    for log in logs:
        count, last = see_log(log, last)
        all_ += count
    assert all_ == int(counts['cells']) and len(logs) == int(counts['pieces'])
    whole = int(counts['lost']) == 0
    assert taking.returncode == int(not whole) == int(counts['status']), line
    print(f'line: {took:.1f} s over two namespaces by {way}: {all_} of {CELLS} cells, each in its place; {line}')


try:
    with tempfile.TemporaryDirectory(dir=os.environ.get('TMPDIR', '/tmp')) as name:
        main(pathlib.Path(name))
finally:
    for space in SPACES:
        subprocess.run(['ip', 'netns', 'del', space], check=False, stderr=subprocess.DEVNULL)
