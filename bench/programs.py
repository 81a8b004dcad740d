#!/usr/bin/env python3
"""A proved program beside plain C on logs of 64 MiB, two channels in order 0, in each format: the time of each, and their ratio.

  programs.py linelist WRITELOG LINELIST PLAINLIST           some cells lost, some spoiled
  programs.py salvage WRITELOG SALVAGE PLAINSALVAGE          the same
  programs.py anything WRITELOG ANYTHING PLAINANYTHING       silence

WRITELOG makes the logs (bench/writelog.c). Each program reads its log from standard input and writes to /dev/null. The least of nine
runs counts, in processor time; the programs take turns. What the two print is compared first. `cat` is the floor. Of 56 hex a ratio is
asked.
"""
import hashlib
import os
import shutil
import subprocess
import sys
import tempfile

RECORDS = 64 * 1024 * 1024 // 49
RUNS = 9
FORMATS = '02 04 06 08 43 45 47 13 15 17 52 54 56 5A'.split()
MOST_OF_PLAIN = {'linelist': 0.30, 'anything': 0.50}
MOST_MEMORY = {'linelist': 4 * 1024}  # KiB


def seconds_of(program, log):
    """Processor time."""
    with open(log, 'rb') as source, open(os.devnull, 'wb') as sink:
        child = subprocess.Popen([program], stdin=source, stdout=sink, stderr=sink)
        _, status, used = os.wait4(child.pid, 0)
    if status != 0:
        sys.exit(f'{program} failed')
    return used.ru_utime + used.ru_stime


def peak_of(program, log):
    """KiB of memory at the most. It is read when all of the log is handed over and before the program sees its end."""
    with open(os.devnull, 'wb') as sink:
        child = subprocess.Popen([program], stdin=subprocess.PIPE, stdout=sink, stderr=sink)
        with open(log, 'rb') as source:
            shutil.copyfileobj(source, child.stdin)
        child.stdin.flush()
        with open(f'/proc/{child.pid}/status', encoding='ascii') as status:
            peak = next(line for line in status if line.startswith('VmHWM:'))
        child.stdin.close()
        child.wait()
    return int(peak.split()[1])


def printed(program, log):
    with open(log, 'rb') as source:
        said = subprocess.run([program], stdin=source, capture_output=True, check=True)
    return hashlib.sha256(said.stdout).hexdigest(), hashlib.sha256(said.stderr).hexdigest()


def measure(name, octet, programs, log):
    proved, plain = programs
    if printed(proved, log) != printed(plain, log):
        sys.exit(f'{octet} hex: {name} and plain C print different answers')
    runs = [[seconds_of(program, log) for program in (proved, plain, 'cat')] for _ in range(RUNS)]
    seconds, plain_seconds, floor = (min(times) for times in zip(*runs))
    ratio = seconds / plain_seconds
    asked = f'  (asked: at most {MOST_OF_PLAIN[name]:.2f})' if octet == '56' and name in MOST_OF_PLAIN else ''
    print(f'{octet} hex  {seconds:8.3f} s  {plain_seconds:8.3f} s  {floor:8.3f} s  {ratio:5.2f}{asked}', flush=True)


def main():
    name, writelog, *programs = sys.argv[1:]
    more = ['silence'] if name == 'anything' else []
    print(f'{name} on 64 MiB; ratio: {name} / plain C')
    print(f'        {name:>10}     plain C         cat  ratio')
    with tempfile.TemporaryDirectory() as folder:
        log = os.path.join(folder, 'log')
        for octet in FORMATS:
            with open(log, 'wb') as sink:
                subprocess.run([writelog, octet, str(RECORDS), *more], stdout=sink, check=True)
            measure(name, octet, programs, log)
        asked = f' (asked: at most {MOST_MEMORY[name]})' if name in MOST_MEMORY else ''
        print(f'peak memory {peak_of(programs[0], log)} KiB{asked}')


if __name__ == '__main__':
    main()
