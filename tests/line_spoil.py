#!/usr/bin/env python3
"""Spoiled captures through a build of the desk tool that notices a wrong use of memory. Each call ends with 0 to 3.

usage: line_spoil.py PROGRAM COUNT [SEED]
"""
import os
import pathlib
import random
import struct
import subprocess
import sys
import tempfile

import line_made as made

if len(sys.argv) < 3:
    sys.exit(__doc__)
program, count = str(pathlib.Path(sys.argv[1]).resolve()), int(sys.argv[2])
chance = random.Random(int(sys.argv[3]) if len(sys.argv) > 3 else 1)
os.environ['ASAN_OPTIONS'] = 'detect_leaks=0'
LENGTHS = [0, 1, 7, 8, 15, 16, 19, 20, 27, 28, 39, 40, 255, 1464, 65535, 262144, 262145, 0x7FFFFFFF, 0xFFFFFFFF]


def spoiled(octets, order):
    octets = bytearray(octets)
    for _ in range(chance.choice([0, 1, 3, 30])):
        at = chance.randrange(len(octets))
        kind = chance.randrange(6)
        if kind == 0:
            octets[at] ^= 1 << chance.randrange(8)
        elif kind == 1:
            octets[at] = chance.choice([0, 1, 0x40, 0x45, 0x4F, 0x60, 0x7F, 0x80, 0xFF])
        elif kind == 2:
            del octets[at:at + chance.randrange(300)]
        elif kind == 3:
            octets[at:at] = chance.randbytes(chance.randrange(300))
        elif kind == 4:  # a length of the first packet's header
            octets[32:36] = struct.pack(order + 'I', chance.choice(LENGTHS))
        else:
            octets[at:at + 2] = chance.choice(LENGTHS).to_bytes(4, 'big')[2:]
        if not octets:
            octets = bytearray(b'\0')
    return bytes(octets)


ended = {}
with tempfile.TemporaryDirectory() as name:
    folder = pathlib.Path(name)
    log = made.made_log(program, folder, 200)
    records = [log[at:at + 49] for at in range(3, len(log), 49)]
    for number in range(count):
        order, link, ip = chance.choice('<>'), chance.choice(list(made.LINKS)), chance.choice([made.ipv4, made.ipv6])
        line = made.sent(records, chance.choice([1, 4, 14, 28]), chance.randrange(1, 65536))
        line = made.spoiled_line(line, chance, .05, .1, .2, 10**8)
        whole = made.capture(line, link, ip, order, chance.random() < .5)
        (folder / 'in.pcap').write_bytes(spoiled(whole, order))
        words = ['--format', chance.choice(['56', '56', '06', '5A', '13'])]
        words += chance.choice([[], ['--from', '127.0.0.1'], ['--idle', '1']])
        done = subprocess.run([program, 'record', str(folder / 'out.log'), '--capture', str(folder / 'in.pcap'), '--channels',
                               chance.choice('12'), '--every', '0.01', *words], capture_output=True, check=False)
        said = done.stderr.decode(errors='replace')
        if not 0 <= done.returncode <= 3 or 'Sanitizer' in said or 'runtime error' in said:
            (pathlib.Path('target') / 'spoiled.pcap').write_bytes((folder / 'in.pcap').read_bytes())
            sys.exit(f'line: capture {number} ended with {done.returncode}: target/spoiled.pcap\n{said}')
        ended[done.returncode] = ended.get(done.returncode, 0) + 1
        for log_ in folder.glob('out*.log'):
            made.records_of(log_)
            log_.unlink()
print(f'line: {count} spoiled captures, by status {dict(sorted(ended.items()))}')
