#!/usr/bin/env python3
"""Recordings of captures by the desk tool: what log, what counts, what status. No socket.

usage: line_try.py PROGRAM [NAME..]      all tries, or those of these names
"""
import dataclasses
import pathlib
import random
import re
import struct
import subprocess
import sys
import tempfile

import line_made as made

HERE = pathlib.Path(__file__).resolve().parent
VECTORS = HERE / 'vectors' / 'live'
if len(sys.argv) < 2:
    sys.exit(__doc__)
PROGRAM = str(pathlib.Path(sys.argv[1]).resolve())
FOLDER = pathlib.Path(tempfile.mkdtemp(prefix='line.'))
MS = 10**6


class Wrong(Exception):
    pass


def see(holds, words):
    if not holds:
        raise Wrong(words)


@dataclasses.dataclass
class Recorded:
    status: int
    counts: dict
    said: str
    logs: list

    def sees(self, status, words='', **counts):
        see(self.status == status, f'status {self.status} and not {status}\n{self.said}')
        see(words in self.said, f'no word of: {words}\n{self.said}')
        for name, number in counts.items():
            see(self.counts[name] == number, f'{name} is {self.counts[name]} and not {number}\n{self.said}')
        return self


def record(octets, *words, channels=2):
    """A capture's octets, or its datagrams, recorded. The logs are those that are there afterwards."""
    for old in FOLDER.glob('out*'):
        old.unlink()
    (FOLDER / 'in.pcap').write_bytes(octets if isinstance(octets, bytes) else made.capture(octets))
    call = [PROGRAM, 'record', str(FOLDER / 'out.log'), '--capture', str(FOLDER / 'in.pcap'), '--channels', str(channels)]
    done = subprocess.run(call + list(words), capture_output=True, text=True, check=False)
    see(0 <= done.returncode <= 3, f'ended with {done.returncode}\n{done.stderr}')
    lines = done.stdout.splitlines()
    see(len(lines) <= 1, 'more than one line on standard output')
    counts = dict(word.split('=') for word in (lines or [''])[0].split())
    counts = {name: float(number) if '.' in number else int(number) for name, number in counts.items()}
    see(not counts or counts['status'] == done.returncode, 'the line has another status')
    see((done.returncode == 1) == (done.stderr.splitlines()[-1:] != [] and done.stderr.splitlines()[-1].startswith('NO: ')),
        f'status {done.returncode}, and the last line is {done.stderr.splitlines()[-1:]}')
    logs = sorted(FOLDER.glob('out*.log'), key=lambda path: int((re.findall(r'\.(\d+)\.log', path.name) or ['1'])[0]))
    return Recorded(done.returncode, counts, done.stderr, [made.records_of(log) for log in logs])


def played(group, first=1, octets=None):
    """A log's datagrams by play, with other sequence numbers."""
    (FOLDER / 'played.log').write_bytes(octets or LOG)
    subprocess.run([PROGRAM, 'play', '-q', '-F', str(FOLDER / 'played.log'), '--capture', str(FOLDER / 'played.pcap'),
                    '--group', str(group)], check=True)
    found = made.captured((FOLDER / 'played.pcap').read_bytes())
    return [one.numbered(made.after(first, at)) for at, one in enumerate(found)]


def see_places(recorded):
    """Each cell of each log in its place from the log's first, none twice, none out of order."""
    where = {octets: at for at, octets in enumerate(RECORDS)}
    lists = subprocess.run([PROGRAM, 'list', *(str(path) for path in sorted(
        FOLDER.glob('out*.log'), key=lambda path: int((re.findall(r'\.(\d+)\.log', path.name) or ['1'])[0])))],
        capture_output=True, text=True, check=True).stdout
    last, log, base, place, at = -1, -1, None, 0, 0
    for line in lists.splitlines():
        words = line.split()
        if words[0] == 'format':
            log, base, place, at = log + 1, None, 0, 0
        elif words[1:2] == ['sound'] and words[0] != 'end':
            place += int(words[2]) + 1
            index = where[recorded.logs[log][at]]
            base = index - place if base is None else base
            see(index - base == place, f'cell {index} stands in place {place} of log {log + 1}, which begins at {base + 1}')
            see(index > last, f'cell {index} comes after {last}')
            last, at = index, at + 1
        elif words[1:2] == ['refused']:
            at += 1
    see(log + 1 == len(recorded.logs), 'the lists')


def try_vectors():
    """The list of ../shared/tried/live/README.md."""
    whole = made.records_of(VECTORS / 'played.log')
    for name in ('played-4', 'swapped', 'first-late', 'late-by-5', 'repeated'):
        came = record((VECTORS / f'{name}.pcap').read_bytes())
        twice = 2 if name == 'repeated' else 0
        came.sees(0, cells=60, sound=60, missing=0, refused=0, damaged=0, lost=0, not_taken=0, pieces=1)
        see(came.counts['late'] + came.counts['repeated'] == twice, f'{name}: late or repeated')
        see(came.logs == [whole], f'{name}: another log')
    three = (VECTORS / 'lost-3-datagrams.pcap').read_bytes()
    came = record(three).sees(1, 'NO: 12 cells are missing', sound=48, missing=12, lost=3, pieces=1)
    see(came.logs == [whole[:20] + whole[32:]], 'lost-3-datagrams: another log')
    record(three, '--allow', '300000').sees(0, sound=48, missing=12, lost=3)
    came = record((VECTORS / 'lost-4-datagrams.pcap').read_bytes())
    came.sees(1, 'NO: the reading is in 2 pieces', sound=44, missing=16, lost=4, pieces=2)
    see(came.logs == [whole[:20], whole[36:]], 'lost-4-datagrams: other logs')
    see('after record 20' in came.said and '16 cells lost' in came.said, 'no word of the new log')
    wrap = (VECTORS / 'wrap-7.pcap').read_bytes()
    came = record(wrap, '--label', '1048575', '--circuit', '4095/65535').sees(0, sound=60, missing=0)
    see(came.logs == [whole], 'wrap-7: another log')
    record(wrap).sees(1, 'NO: no cell came', cells=0, not_taken=9)
    (FOLDER / 'out.pcap').unlink(missing_ok=True)
    subprocess.run([PROGRAM, 'play', '-q', VECTORS / 'played.log', '--capture', FOLDER / 'out.pcap'], check=True)
    see((FOLDER / 'out.pcap').read_bytes() == (VECTORS / 'played-4.pcap').read_bytes(), 'play writes another capture')


def try_lines(count=40):
    """Random lines, with sequence numbers over the wrap."""
    split = 0
    for seed in range(count):
        chance = random.Random(seed)
        group = [1, 2, 4, 7, 14][seed % 5]
        first = chance.choice([1, 65000, 65535, chance.randrange(1, 65536)])
        loss, repeats, late = chance.choice([0, .02, .1, .2, .2]), chance.choice([0, .02, .2]), chance.choice([0, .05, .5])
        span = chance.choice([2, 10, 30]) * MS
        line = made.spoiled_line(played(group, first), chance, loss, repeats, late, span)
        words = f'line {seed}: {group} a datagram from {first}, {loss} lost, {repeats} twice, {late} late by {span // MS} ms'
        try:
            came = record(line)
            counts = came.counts
            see_places(came)
            turns = counts['cells'] // group
            see(counts['cells'] == sum(map(len, came.logs)) == counts['sound'] and counts['refused'] == 0, 'cells')
            see(len(line) == turns + counts['late'] + counts['repeated'] + counts['not_taken'], 'datagrams')
            ends = [RECORDS.index(log[at]) // group for log, at in ((came.logs[0], 0), (came.logs[-1], -1))]
            see(counts['lost'] == ends[1] - ends[0] + 1 - turns, 'lost')
            see(counts['missing'] == counts['lost'] * group, 'missing')
            see(came.status == (1 if counts['lost'] else 0), 'status')
            if span < 50 * MS and group >= 4:
                see(counts['late'] == 0 and turns == len({one.sequence for one in line}), 'one that came in time is lost')
        except Wrong as wrong:
            raise Wrong(f'{words}: {wrong}') from None
        split += len(came.logs) > 1
    see(split >= 10, f'of {count} lines {split} were in pieces')


def try_gap():
    """The gap's limit: what the cells' numbers tell and no more."""
    ones, twos = played(1), played(2)
    for lost, limit in ((14, ()), (3, ('--gap', '3')), (0, ('--gap', '0'))):
        came = record(ones[:100] + ones[100 + lost:200], *limit)
        came.sees(1 if lost else 0, missing=lost, lost=lost, pieces=1)
        see_places(came)
        came = record(ones[:100] + ones[101 + lost:200], *limit)
        came.sees(1, 'pieces', missing=lost + 1, lost=lost + 1, pieces=2)
        see_places(came)
    record(twos[:20] + twos[27:99]).sees(1, lost=7, missing=14, pieces=1)
    # Datagrams of several lengths: one that is lost may have had 28 cells. Those that wait behind the gap count.
    mixed = [one.numbered(at + 1) for at, one in enumerate(ones[:20] + made.sent(RECORDS[20:22], 2) + ones[22:40])]
    record(mixed[:10] + mixed[11:]).sees(1, lost=1, missing=28, pieces=2)
    record(mixed[:19] + mixed[20:]).sees(1, lost=1, missing=28, pieces=2)
    # Cells that the receiver refuses beside those that are lost.
    spoiled = [ones[at] if at not in (112, 113, 114) else made.datagram(
        ones[at].came, at + 1, [RECORDS[at][:16] + bytes([RECORDS[at][16] ^ 8]) + RECORDS[at][17:]]) for at in range(300)]
    came = record(spoiled[:100] + spoiled[112:])
    came.sees(1, 'refused 8: 3, ', lost=12, refused=3, pieces=2)
    see_places(came)


def try_slips():
    """A gap above fourteen, as second numbers tell it: where they don't, that is said, and the answer is a no."""
    ones, fours = played(1), played(4)
    for lost in (15, 16, 17, 31, 32, 64, 118, 119):
        for first in (100, 104, 107, 111):
            came = record(ones[:first] + ones[first + lost:400], '--gap', '119', '--allow', '1000000')
            came.sees(0, missing=lost + (1 if lost % 16 == 15 else 0), lost=lost, refused=int(lost % 16 == 15), pieces=1)
            see(came.logs == [RECORDS[:first] + RECORDS[first + lost:400]], 'another log')
    record(ones[:100] + ones[220:400], '--gap', '119').sees(1, 'pieces', missing=120, pieces=2)
    record(fours[:20] + fours[49:99], '--gap', '119').sees(1, 'NO: 116 cells are missing', missing=116, lost=29, pieces=1)
    record(fours[:20] + fours[50:99], '--gap', '119').sees(1, missing=120, lost=30, pieces=2)
    record(fours[:20] + fours[36:99], '--gap', '64', '--allow', '1000000').sees(0, missing=64, pieces=1)
    record(fours[:20] + fours[37:99], '--gap', '64').sees(1, missing=68, pieces=2)
    # Lost before the line began: the sequence numbers have no gap, and second numbers tell it.
    record(made.sent(RECORDS[:80] + RECORDS[144:400], 4)).sees(1, 'NO: 64 cells are missing', missing=64, lost=0)
    # Without second numbers, and where the next cell that would tell it doesn't come.
    log = made.made_log(PROGRAM, FOLDER, 800)
    plain = made.sent([log[at:at + 49] for at in range(3, len(log), 49)], 4)
    came = record(plain[:20] + plain[36:99], '--gap', '119', '--allow', '1000000')
    came.sees(1, '64 cells are lost before record 80, and second numbers tell 0', missing=64, lost=16, pieces=1)
    see('NO: cells may stand in a wrong place' in came.said, 'no word of the place')
    record(ones[:100] + ones[164:165], '--gap', '119', '--allow', '1000000').sees(1, 'second numbers tell 0', pieces=1)


def try_plain():
    """Without overhead every lost datagram begins a new log."""
    log = made.made_log(PROGRAM, FOLDER, 640, ('--format', '06'))
    records = [log[at:at + 49] for at in range(3, len(log), 49)]
    line = made.sent(records, 4)
    record(line, '--format', '06').sees(0, pieces=1)
    came = record([one for one in line if one.sequence not in (5, 9, 20, 30)], '--format', '06')
    came.sees(1, 'NO: the reading is in 5 pieces', missing=16, lost=4, pieces=5)
    see(came.logs == [records[:16], records[20:32], records[36:76], records[80:116], records[120:]], 'other logs')
    record(line[:9] + line[13:], '--format', '06').sees(1, missing=16, lost=4, pieces=2)


def try_order():
    """Late, repeated, far ahead, and begun again."""
    fours = played(4, 65530)
    late = fours[:10] + fours[11:200] + [fours[10].at(fours[200].came)] + fours[200:]
    came = record(late).sees(1, lost=1, late=1, missing=4, pieces=1)
    see_places(came)
    # 50 ms, and not before: a datagram that is later by 49 ms is waited for, and the window has room for it.
    slow = [one.at(at * 5 * MS) for at, one in enumerate(played(4)[:60])]
    record(slow[:10] + slow[11:20] + [slow[10].at(slow[19].came)] + slow[20:]).sees(0, lost=0, late=0)
    record(slow[:10] + slow[11:22] + [slow[10].at(slow[21].came)] + slow[22:]).sees(1, lost=1, late=1)
    quick = [one.at(at) for at, one in enumerate(played(4)[:200])]
    record(quick[:10] + quick[11:74] + [quick[10]] + quick[74:]).sees(0, lost=0, late=0)
    record(quick[:10] + quick[11:75] + [quick[10]] + quick[75:]).sees(1, lost=1, late=1)
    # The first number is waited for half a window back, also over the wrap.
    for first in (1, 65530, 65500):
        line = [one.at(at) for at, one in enumerate(played(4, first)[:100])]
        came = record(line[32:33] + line[:32] + line[33:]).sees(0, lost=0, late=0)
        see(came.logs == [RECORDS[:400]], 'the first 32 datagrams')
        record(line[33:34] + line[:33] + line[34:]).sees(0, lost=0, late=1)
    # Of a number 128 or more ahead.
    line = [one.at(at) for at, one in enumerate(played(4))]
    record(line[:100] + line[228:229] + line[100:228] + line[229:]).sees(1, lost=1, not_taken=1, pieces=1)
    record(line[:100] + line[227:228] + line[100:227] + line[228:]).sees(1, not_taken=0, pieces=3)
    record(line[:100] + line[228:229] + line[100:]).sees(0, lost=0, not_taken=1)
    came = record(line[:100] + line[300:]).sees(1, lost=200, missing=800, not_taken=0, pieces=2)
    see(came.logs == [RECORDS[:400], RECORDS[1200:]], 'what came after a long gap')
    # The sender began again: eight behind, one after the other, and no other between.
    again = line[:300] + line[100:400]
    came = record(again).sees(1, 'the sender began again', pieces=2, lost=0, late=0, repeated=0)
    see(came.logs == [RECORDS[:1200], RECORDS[400:1600]], 'the sender began again')
    came = record(line[:300] + line[100:107] + line[300:]).sees(0, late=7, pieces=1)
    came = record(line[:300] + line[290:297] + line[300:]).sees(0, repeated=7, late=0, pieces=1)
    came = record(line[:300] + line[100:107] + line[300:301] + line[107:114] + line[301:]).sees(0, late=14, pieces=1)


def try_pieces():
    """No more logs than asked for, and then the last one goes on."""
    line = played(4)
    gaps = [one for at, one in enumerate(line) if at % 20 < 14]
    missing = len(line) * 4 - len(gaps) * 4 - 24
    record(gaps).sees(1, pieces=49, missing=missing)
    came = record(gaps, '--pieces', '3').sees(1, 'cells may stand in a wrong place', pieces=3, missing=missing)
    see(sum(map(len, came.logs)) == 4 * len(gaps), 'cells are lost')
    record(gaps, '--pieces', '1', '--allow', '1000000').sees(1, 'NO: cells may stand in a wrong place', pieces=1)


def try_not_taken():
    """Each reason by itself."""
    line = played(4)[:50]
    whole = record(line).sees(0)

    def odd(at, octets, **more):
        return [dataclasses.replace(one, octets=octets(one.octets), **more) if one is line[at] else one for one in line]

    def with_word(octets, at, keep, put):
        word = int.from_bytes(octets[at:at + 4], 'big') & keep | put
        return octets[:at] + word.to_bytes(4, 'big') + octets[at + 4:]

    ways = {
        'by their form': [lambda o: o[:-1], lambda o: o + b'\0', lambda o: o[:8], lambda o: o[:7], lambda o: b'',
                          lambda o: o[:8] + o[8:60] * 29],
        'by label': [lambda o: with_word(o, 0, 0xFFF, 101 << 12), lambda o: with_word(o, 0, 0xFFFFFEFF, 0)],
        'by control word': [lambda o, put=put: with_word(o, 4, 0xFFFFFFF, put) for put in (1 << 28, 2 << 28, 8 << 28)],
        'without a sequence number': [lambda o: o[:6] + b'\0\0' + o[8:]],
    }
    for words, octets in ways.items():
        for each in octets:
            record(odd(20, each)).sees(1, f'1 {words}', lost=1, missing=4, not_taken=1)
    others = {
        'cells of other circuits': [(8, 0x000FFFFF, 1 << 20), (60, 0xFFF0000F, 129 << 4)],
        'management cells': [(8, 0xFFFFFFF1, 8), (60, 0xFFFFFFF1, 14)],
    }
    for words, cells in others.items():
        for at, keep, put in cells:
            record(odd(20, lambda o, at=at, keep=keep, put=put: with_word(o, at, keep, put))).sees(
                1, f'1 {words}', cells=199, missing=1, lost=0, not_taken=1)
    # Not looked at: traffic class, time to live, flags, fragment, length; congestion and loss priority of a cell.
    for at, keep, put in ((0, 0xFFFFF100, 0xE01), (4, 0xF000FFFF, 0x0FFF0000), (8, 0xFFFFFFF2, 5)):
        came = record(odd(20, lambda o, at=at, keep=keep, put=put: with_word(o, at, keep, put))).sees(0, not_taken=0)
        see(came.logs == whole.logs, 'another log')
    record(odd(20, lambda o: o, source=bytes([127, 0, 0, 9])), '--from', '127.0.0.1').sees(
        1, '1 from strangers', lost=1, not_taken=1)
    record([dataclasses.replace(one, source=bytes([10, 0, 0, 9])) for one in line], '--from', '127.0.0.1').sees(
        1, 'NO: no cell came', not_taken=50)
    record(odd(20, lambda o: o, port=6636)).sees(1, '1 packet passed over', lost=1, not_taken=0)
    record([dataclasses.replace(one, port=7000) for one in line], '--port', '7000').sees(0)
    record(made.sent(RECORDS[:280], 28)).sees(0, cells=280)


def try_links():
    """Links, byte orders, parts of a second, and IPv6."""
    line = played(4)[:50]
    for link in made.LINKS:
        for ip in (made.ipv4, made.ipv6):
            for order in '<>':
                for nano in (True, False):
                    came = record(made.capture(line, link, ip, order, nano), '--from', '::1' if ip is made.ipv6 else '127.0.0.1')
                    came.sees(0, cells=200)
                    see(came.logs == [RECORDS[:200]], f'{link}: another log')
    good = made.ipv4(line[0])
    odd = [good[:6] + b'\x20\0' + good[8:], good[:6] + b'\0\1' + good[8:], good[:9] + b'\6' + good[10:], b'', good[:19],
           good[:24] + b'\0\7' + good[26:], good[:24] + b'\xff\xff' + good[26:], b'\x44' + good[1:], b'\x75' + good[1:],
           made.ipv6(line[0])[:6] + b'\x2c' + made.ipv6(line[0])[7:]]
    record(made.capture(line, packets=odd)).sees(0, f'{len(odd)} packets passed over', cells=200)
    record(made.capture(line, packets=[good[:100]])).sees(0, '1 of them captured in part', cells=200)
    whole = made.capture(line)
    for cut in (25, 39, 41, 300, len(whole) - 1):
        came = record(whole[:cut]).sees(2, 'the capture is cut or damaged')
        see(len(came.logs[0]) == max(0, (cut - 24) // 260) * 4, 'the cells before the cut')
    record(whole[:24] + struct.pack('<IIII', 0, 0, 262145, 262145)).sees(2, 'the capture is cut or damaged')
    for octets, words in ((b'', 'too short'), (whole[:23], 'too short'), (b'\x0a\x0d\x0d\x0a' + bytes(60), 'editcap -F pcap'),
                          (b'RIFF' + whole[4:], "isn't a capture"), (whole[:20] + b'\xe4' + whole[21:], "link 228 isn't read")):
        see(record(octets).sees(2, words).logs == [], 'a log of no capture')


def try_answers():
    """The status, and why."""
    line = played(4)[:500]  # 2,000 cells, 0.25 s
    record([]).sees(1, 'NO: no cell came')
    silence = made.made_log(PROGRAM, FOLDER, 3920, ('--second', '3'), silent=True)
    still = [silence[at:at + 49] for at in range(3, len(silence), 49)]
    record(made.sent(still[:800], 4)).sees(1, 'NO: nothing but silence came', silent_s=0.1)
    noise = [bytes([0]) + bytes(48) for _ in range(40)]
    record(made.sent(noise, 4)).sees(1, 'NO: the receiver took none of 40 cells', cells=40, sound=0, refused=40)
    record(line, '--least', '0.25').sees(0)
    record(line, '--least', '0.251').sees(1, 'NO: 0.250 s of sound are less than --least 0.251')
    # A silence between sounds: 800 cells are 0.1 s.
    between = made.sent(RECORDS[:800] + still[800:1600] + RECORDS[1600:2400], 4)
    record(between, '--silence', '0.1').sees(0, 'nothing but silence for 0.100 s', silent_s=0.1)
    came = record(between, '--silence', '0.0998').sees(1, 'NO: a silence of 0.100 s is over --silence 0.0998')
    see('sound again, after silence of 0.100 s' in came.said, 'no word of its end')
    # A damaged sample, a repeated cell, and a refused one.
    damaged = RECORDS[20][:1] + bytes([RECORDS[20][1] ^ 0x80]) + RECORDS[20][2:]
    record(made.sent(RECORDS[:20] + [damaged] + RECORDS[21:40], 4)).sees(1, 'NO: 1 samples are damaged', damaged=1)
    record(made.sent(RECORDS[:20] + [damaged] + RECORDS[21:40], 4), '--allow', '0').sees(0, damaged=1)
    record(made.sent(RECORDS[:20] + RECORDS[19:40], 3)).sees(0, refused=1, missing=0)
    turned = made.sent(RECORDS[:39] + [b'\1' + RECORDS[39][1:]], 4)
    record(turned).sees(1, 'NO: 1 cells were refused', refused=1)
    # By multiplication: 1 of 4,000 missing is 250 in a million.
    ones = made.sent(RECORDS, 1)
    share = 10**6 / len(RECORDS)
    record(ones[:100] + ones[101:], '--allow', str(int(share) + 1)).sees(0, missing=1)
    record(ones[:100] + ones[101:], '--allow', str(int(share))).sees(1, 'more than --allow', missing=1)
    # Another maker's sender sets the indication in cells 7 and 15: every eighth is refused 15.
    other = [bytes([at % 8 == 7]) + octets[1:] for at, octets in enumerate(RECORDS[:800])]
    record(made.sent(other, 4)).sees(1, "another maker's sender? see DESK.md", refused=100, missing=99)
    see('refused 15: 100, ' in record(made.sent(other, 4)).said, 'no word of refusal 15')
    # A log with gaps that is played: what its numbers tell.
    record(made.sent(RECORDS[:100] + RECORDS[110:400], 4)).sees(1, missing=10, lost=0)
    # No cell for a while, and the ends by --idle and --for, by the capture's own time.
    later = [one.at(one.came + 20 * 10**9) if at >= 250 else one for at, one in enumerate(line)]
    came = record(later).sees(0, 'NO CELL for 20.000 s')
    see('cells again, after 20.000 s' in came.said, 'no word of its end')
    record(later, '--idle', '5').sees(0, cells=1000)
    record(later, '--for', '0.2').sees(0, cells=1000)
    record(line, '--for', '0.1').sees(0, cells=800)
    record(line, '--every', '0.1').sees(0, '0.200 s: 8000 cells/s, ')
    record(line, '--format', '57').sees(2, 'refused 1')
    record(line, channels=13).sees(2, 'refused 2')
    record(line, '--order', '2').sees(2, 'refused 3')
    for limit, cells in ((3 + 49 * 800, 800), (3 + 49 * 801 - 1, 800), (3 + 49 * 2000, 2000)):
        came = record(line, '--most', str(limit)).sees(0 if cells == 2000 else 3, cells=cells)
        see(len(came.logs[0]) == cells, '--most')


def main(names):
    tries = {name[4:]: call for name, call in globals().items() if name.startswith('try_')}
    for name in names or tries:
        try:
            tries[name]()
        except Wrong as wrong:
            sys.exit(f'line: {name}: {wrong}')
        print(f'line: {name}')


LOG = made.made_log(PROGRAM, FOLDER, 3920, ('--second', '3'))
RECORDS = [LOG[at:at + 49] for at in range(3, len(LOG), 49)]
assert len(set(RECORDS)) == 3920
try:
    main(sys.argv[2:])
finally:
    for file in FOLDER.iterdir():
        file.unlink()
    FOLDER.rmdir()
