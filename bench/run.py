#!/usr/bin/env python3
"""The benchmark's table: instructions per cell of the proved library and of plain C, and nanoseconds beside them.

  run.py BENCH [ROWS]               the table, then the rows that are above what is asked
  run.py --count BENCH [ROWS]       instructions alone: a few seconds, and the same at every run
  run.py --page FILE BENCH          write the tables of instructions into FILE, which is docs/SPEED.md
  run.py --guard FILE BENCH         hold the rows that FILE names to its numbers: fails where one is more than 3 % above, or 10 %
                                    where FILE was measured over other sources of the crates
  run.py --keep FILE BENCH          write today's numbers into FILE

BENCH is the program of bench.c. ROWS is a pattern that picks rows by name. It makes some calls of each row, all in one
process under callgrind, which writes one count for each batch of calls.
"""
import argparse
import hashlib
import os
import pathlib
import re
import shutil
import subprocess
import sys
import tempfile

ROOT = pathlib.Path(__file__).resolve().parent.parent
CELLS = 16  # calls in a batch, as in bench.c
RECORDS = 1024  # records of a log, as in walks.c
WALKS = ('sheet', 'anything', 'list', 'salvage', 'send_log')  # calls that go through a log: told for one record

# What is asked, in instructions: a number for the usual call, and for every other row a part of plain C's. Before request 8 it was
# 395 and 348, 0.60 and 0.65; the division in place of the number table may take 32 and 20 more than the 379 and 338 before it, and
# 0.04. The count of cells placed (request 5) may take 16 more than the 352 that unpacking took before it.
USUAL = {'pack': 411, 'unpack': 368}
PART_OF_PLAIN = {'0': 0.64, '1': 0.69}
PART_OF_PLAIN_WITHOUT_V = {'0': 0.60, '1': 0.65}  # 13, 15 and 17 hex: overhead and no ancillary field, request 4
PART_OF_PLAIN_FRAMES = 1.2  # rows of an AES3 cable: a frame in and a frame out
PART_OF_PLAIN_UNITS = 0.55  # rows of data units: export and read
# Rows of calls that go through a log. Of plain C's time 0.40 is asked of a sheet (sheet.c). Of a salvage nothing is asked.
PART_OF_PLAIN_WALKS = {'sheet': 0.70, 'anything': 1.0, 'list': 1.0, 'salvage': float('inf')}
# Of sending into a log, beside single calls in place of plain C: 56 hex with one channel or two in order 0, and every other row.
PART_OF_SINGLE_CALLS = {True: 0.56, False: 0.72}

# How far a guarded row may be from its number; and where the number was measured over other sources, as after a change that was
# measured on the other machine alone.
MARGIN = 0.03
MARGIN_ELSEWHERE = 0.10

# callgrind counts each octet of x86-64's own repeated store. glibc uses it for long gaps; this number says from how many octets
# on. On AArch64 glibc chooses its stores by the processor's name.
SAME_EVERYWHERE = 'glibc.cpu.x86_rep_stosb_threshold=1048576:glibc.cpu.name=generic'


class Row:
    def __init__(self, name, proved, plain):
        self.name, self.proved, self.plain, self.times = name, proved, plain, None
        parts = re.fullmatch(r'(\w+)-(\w\w)-C(\d+)-order(\d)(-gap14)?', name).groups()
        self.way, self.octet, self.channels, self.order, self.gap = parts
        if self.way in WALKS:
            self.proved, self.plain = proved / RECORDS, plain / RECORDS
        self.asked = PART_OF_PLAIN[self.order] * self.plain
        if self.way in ('aes3_import', 'aes3_export'):
            self.asked = PART_OF_PLAIN_FRAMES * plain
        elif self.way in ('export', 'read'):
            self.asked = PART_OF_PLAIN_UNITS * plain
        elif self.way == 'send_log':
            self.asked = PART_OF_SINGLE_CALLS[self.octet == '56' and self.channels in ('1', '2') and self.order == '0'] * self.plain
        elif self.way in WALKS:
            self.asked = PART_OF_PLAIN_WALKS[self.way] * self.plain
        elif self.octet in ('13', '15', '17'):
            self.asked = PART_OF_PLAIN_WITHOUT_V[self.order] * plain
        elif self.octet == '56' and self.channels in ('1', '2') and self.order == '0' and not self.gap:
            self.asked = USUAL[self.way]

    @property
    def ratio(self):
        return self.proved / self.plain


def printed_by(words, **more):
    return subprocess.run(words, check=True, stdout=subprocess.PIPE, text=True, **more).stdout


def counted(bench, pattern):
    """The rows, each with the instructions of one call."""
    if shutil.which('valgrind') is None:
        sys.exit('bench: valgrind is missing (apt-get install valgrind)')
    with tempfile.TemporaryDirectory() as folder:
        out = os.path.join(folder, 'counts')
        names = printed_by(['valgrind', '--quiet', '--tool=callgrind', '--collect-atstart=no', '--combine-dumps=yes',
                            f'--callgrind-out-file={out}', bench, 'count', pattern],
                           env=dict(os.environ, GLIBC_TUNABLES=SAME_EVERYWHERE)).split()
        if not names:
            sys.exit(f'bench: no row is named like {pattern}')
        with open(out, encoding='utf-8') as file:
            totals = [int(number) for number in re.findall(r'^totals: (\d+)', file.read(), re.M)]
    counts = 4 * len(names)
    if len(totals) < counts or 0 in totals[:counts]:
        sys.exit(f'bench: callgrind did not count each batch apart ({len(totals)} counts of {len(names)} rows)')
    calls = [(twice - once) / CELLS for once, twice in zip(totals[0:counts:2], totals[1:counts:2])]
    return [Row(name, proved, plain) for name, proved, plain in zip(names, calls[0::2], calls[1::2])]


def add_times(rows, bench, pattern):
    lines = [line.split() for line in printed_by([bench, 'times', pattern]).splitlines()]
    times = {line[0]: [float(word) for word in line[1:]] for line in lines}
    for row in rows:
        row.times = times[row.name]


def print_table(rows):
    timed = rows[0].times is not None
    print('Per cell; of an AES3 cable per frame, of data units per call of 240 frames, of a log per record. Instructions are the')
    print('same at every run, nanoseconds are not. ratio: proved / plain C.')
    print(f'{"":26} {"instructions":>24}' + (f' {"nanoseconds":>26}' if timed else ''))
    print(f'{"row":26} {"proved":>8} {"plain C":>8} {"ratio":>6}'
          + (f' {"proved":>10} {"plain C":>8} {"ratio":>6} {"memcpy":>8}' if timed else ''))
    for row in rows:
        line = f'{row.name:26} {row.proved:8.0f} {row.plain:8.0f} {row.ratio:6.2f}'
        if timed:
            proved, plain, copy = row.times
            line += f' {proved:10.1f} {plain:8.1f} {proved / plain:6.2f} {copy:8.1f}'
        print(line + ('  above' if row.proved > row.asked else ''))


def tables(rows):
    """Tables for packing, unpacking, gaps, frames and logs: a line for each format and order, a column for each C."""
    written = []
    for heading, wanted in (('packed', lambda row: row.way == 'pack'),
                            ('unpacked', lambda row: row.way == 'unpack' and not row.gap),
                            ('unpacked, 14 cells missing', lambda row: row.gap),
                            ('a frame of an AES3 cable imported', lambda row: row.way == 'aes3_import'),
                            ('a frame of an AES3 cable exported', lambda row: row.way == 'aes3_export'),
                            ('240 frames exported', lambda row: row.way == 'export'),
                            ('240 frames read back', lambda row: row.way == 'read'),
                            ('a record counted for a sheet', lambda row: row.way == 'sheet'),
                            ('a record of silence looked at', lambda row: row.way == 'anything'),
                            ('a record listed', lambda row: row.way == 'list'),
                            ('a record salvaged', lambda row: row.way == 'salvage'),
                            ('a cell sent into a log, beside single calls', lambda row: row.way == 'send_log')):
        lines = {}
        for row in filter(wanted, rows):
            text = f'{row.proved:.0f} ({row.ratio:.2f})'
            lines.setdefault((row.octet, row.order), []).append(f'**{text}**' if row.proved > row.asked else text)
        columns = ('C = 1', 'C = 2', 'C = 5', 'C = S') if 'packed' in heading else ('C = 2',)
        columns = ('C = 2',) if 'missing' in heading else ('C = 2', 'C = 5') if 'sheet' in heading else columns
        written += ['', '| ' + ' | '.join((heading, 'order') + columns) + ' |', '|---|---|' + '---|' * len(columns)]
        for (octet, order), texts in lines.items():
            written.append(f'| {octet} hex | {order} | ' + ' | '.join(texts) + ' |')
    return '\n'.join(written) + '\n\n'


def write_page(path, bench):
    with open(path, encoding='utf-8') as file:
        text = file.read()
    begin, end = '<!-- bench-table: begin -->\n', '<!-- bench-table: end -->\n'
    before, rest = text.split(begin)
    after = rest.split(end)[1]
    with open(path, 'w', encoding='utf-8') as file:
        file.write(before + begin + tables(counted(bench, '.')) + end + after)


def print_summary(rows):
    above = [row for row in rows if row.proved > row.asked]
    if not above:
        print(f'all {len(rows)} rows are within what is asked')
        return
    print(f'{len(above)} of {len(rows)} rows are above what is asked:')
    for row in above:
        print(f'  {row.name:26} {row.proved:.0f} instructions, {row.ratio:.3f} of plain C; asked at most {row.asked:.0f}')


def sources():
    """A checksum of what the library is compiled from."""
    sys.path.insert(0, str(ROOT / 'tools'))
    from quick_face import crates_of
    paths = [path for crate in crates_of('rimesatchel') for path in (ROOT / 'crates' / crate / 'src').rglob('*.rt')]
    total = hashlib.sha256()
    for path in sorted(paths):
        total.update(f'{path.relative_to(ROOT)} {path.stat().st_size}\n'.encode() + path.read_bytes())
    return total.hexdigest()


def read_kept(path):
    """What FILE keeps: the lines of its head, the checksum of the sources that it was measured over, and a number for each row."""
    with open(path, encoding='utf-8') as file:
        lines = file.read().splitlines()
    head = [line for line in lines if line.startswith('#')]
    kept = {line.split()[0]: line.split()[1] for line in lines if line and not line.startswith('#')}
    measured = kept.pop('sources', '')
    return head, measured, {name: float(number) for name, number in kept.items()}


def counted_like(kept, bench):
    rows = {row.name: row for row in counted(bench, '^(' + '|'.join(kept) + ')$')}
    missing = [name for name in kept if name not in rows]
    if missing:
        sys.exit(f'bench: no row is named {missing[0]}')
    return rows


def guard(path, bench):
    _, measured, kept = read_kept(path)
    rows = counted_like(kept, bench)
    above, margin = False, MARGIN
    if measured != sources():
        margin = MARGIN_ELSEWHERE
        print(f'{path} was measured over other sources than the crates have now: {100 * margin:.0f} % more are let pass. '
              '`make bench-keep` measures anew')
    for name, number in kept.items():
        change = rows[name].proved / number - 1
        line = f'{name:26} {rows[name].proved:6.0f} instructions per cell, kept {number:.0f}: {100 * change:+.1f} %'
        if change > margin:
            above = True
            line += f'  SLOWER by more than {100 * margin:.0f} %'
        elif change < -margin:
            line += f'  faster: `make bench-keep` writes the new number to {path}'
        print(line)
    if above:
        sys.exit(f'bench: a row is slower than {path} has it. If there is a reason, `make bench-keep` moves the number; '
                 'say why in the commit')


def keep(path, bench):
    head, _, kept = read_kept(path)
    rows = counted_like(kept, bench)
    with open(path, 'w', encoding='utf-8') as file:
        lines = [f'{"sources":26} {sources()}'] + [f'{name:26} {rows[name].proved:.0f}' for name in kept]
        file.write('\n'.join(head + lines) + '\n')


def main():
    words = argparse.ArgumentParser(description=__doc__, formatter_class=argparse.RawDescriptionHelpFormatter)
    words.add_argument('--count', action='store_true')
    words.add_argument('--guard', metavar='FILE')
    words.add_argument('--keep', metavar='FILE')
    words.add_argument('--page', metavar='FILE')
    words.add_argument('bench')
    words.add_argument('rows', nargs='?', default='.')
    given = words.parse_args()
    bench = os.path.abspath(given.bench)
    for path, work in ((given.guard, guard), (given.keep, keep), (given.page, write_page)):
        if path:
            work(path, bench)
            return
    rows = counted(bench, given.rows)
    if not given.count:
        add_times(rows, bench, given.rows)
    print_table(rows)
    print_summary(rows)


if __name__ == '__main__':
    main()
