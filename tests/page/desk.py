#!/usr/bin/env python3
"""Logs, and what the desk tool makes of each, for a comparison with the page's reader (reader.mjs).

usage: desk.py TOOL OUT [EACH [SPOILED]]

The logs are those of the vectors, SPOILED ones by the third reading's maker (200 where nothing is said), and a few made for a
purpose. list, anything and sheet take all of them in one call each; salvage, labels and receive are asked of each EACHth log.
"""
import pathlib
import random
import subprocess
import sys

TESTS = pathlib.Path(__file__).resolve().parent.parent
sys.path.insert(0, str(TESTS))
from desk_third_made import flipped, records, spoiled_log  # noqa: E402
from third_log import write_header, write_record  # noqa: E402
from third_reading import Sender, Setting, send  # noqa: E402

RATE = 44100  # that every third log is asked by


def of_vectors():
    """Each log of the vectors once."""
    found = {}
    for kind in ('slips', 'read_header', 'linelist', 'anything', 'salvage', 'sheet'):
        for line in (TESTS / 'vectors' / f'{kind}.txt').read_text(encoding='ascii').splitlines():
            fields = line.split(' => ')[0].split(' ')
            octets = bytes.fromhex(fields[1].strip('-'))
            if kind != 'sheet':
                found[octets] = None
                continue
            lengths = [int(length) for length in fields[2].split(',')] if fields[2] != '-' else []
            for length in lengths if sum(lengths) == len(octets) else []:
                found[octets[:length]] = None
                octets = octets[length:]
    return list(found)


def turning(chance, given, count):
    """Cells of one sender in a row, the same sixteen over and over."""
    row = records(chance, given, 16)
    return [row[at % 16] for at in range(count)]


def slipping(chance, given, borders):
    """Cells are lost by sixteens before the last or the first record of a piece of the page's: what second numbers tell is
    decided in the next piece, once behind forty records that are refused; of the very last record nothing decides."""
    state, row, cycle = Sender(given, 0, True, 0), [], []
    for _ in range(128):  # then numbers and second numbers begin anew
        samples, indication = [chance.randrange(1 << 24) for _ in range(given.entries)], state.number % 8 == 0
        state, cell = send(state, indication, samples, [0] * given.entries)
        cycle.append(write_record(indication, cell))
    sent = 0
    for border, refused in borders:
        for lost in (0, chance.choice([16, 48, 112])):
            sent += lost
            while len(row) < border - (0 if lost else 1):
                row.append(cycle[sent % 128])
                sent += 1
        row += [row[-1]] * refused
    return row


def made(chance):
    """Over several pieces of the page, with gaps and refusals at their borders; a gap at sample 375 of 48,000 Hz, a tie of
    printf's; damage in the very last sample; all slots; slips at the borders of pieces; nothing."""
    given = Setting(0x56, 2, 0)
    row = turning(chance, given, 40000)
    for at in (39990, 33000, 32768, 32767, 16385, 16384, 16383, 100):
        row[at] = flipped(row[at], chance.randrange(384))
        row.insert(at, row[at - 1])
        del row[at + 2:at + 2 + chance.choice([1, 14])]
    yield 'pieces', write_header(given) + b''.join(row)
    given = Setting(0x52, 8, 0)  # three sample times a cell
    row = turning(chance, given, 200)
    yield 'tie', write_header(given) + b''.join(row[:125] + row[126:140] + row[141:])
    yield 'last', write_header(given) + b''.join(row[:20] + [flipped(row[20], 0)])
    for octet, slots in ((0x02, 48), (0x5A, 8), (0x17, 12)):
        given = Setting(octet, slots, 1)
        yield f'all-{octet:02x}', write_header(given) + b''.join(turning(chance, given, 50))
    given = Setting(0x56, 2, 0)
    row = slipping(chance, given, [(16384, 0), (32768, 40), (49153, 0), (52000, 3)])
    yield 'slips', write_header(given) + b''.join(row)
    yield 'nothing', b''
    yield 'no-records', write_header(given)


def write_logs(folder, spoiled):
    names = []
    chance = random.Random(51)
    logs = [(f'v{at:04}', log) for at, log in enumerate(of_vectors())]
    logs += [(f's{at:04}', spoiled_log(chance, at)) for at in range(spoiled)]
    for name, log in [*made(chance), *logs]:
        (folder / f'{name}.log').write_bytes(log)
        names.append(f'{name}.log')
    return names


def main(tool, out, each='1', spoiled='200'):
    tool, out = pathlib.Path(tool).resolve(), pathlib.Path(out).resolve()
    logs, desk = out / 'logs', out / 'desk'
    logs.mkdir(parents=True)
    desk.mkdir()
    names = write_logs(logs, int(spoiled))

    def run(*words, to=None):
        done = subprocess.run([tool, *words], capture_output=True, check=False, cwd=logs)
        if to is not None:
            to.write_bytes(done.stdout)
        return done

    for command in ('list', 'anything', 'sheet'):
        run(command, '-q', *names, to=desk / command)
    for at, name in enumerate(names):
        if at % int(each) != 0 and at > 12:
            continue
        base, rate = str(desk / name), ['--rate', str(RATE)] if at % 3 == 0 else []
        said = run('salvage', name, f'{base}.salvaged').stderr.decode()
        pathlib.Path(f'{base}.lines').write_text(''.join(line for line in said.splitlines(True) if line[:11] != 'rimesatchel'))
        run('labels', '-q', *rate, name, to=pathlib.Path(f'{base}.status'))
        words = ('--json', '--labels', f'{base}.labels')
        run('receive', '-q', *rate, name, f'{base}.wav', *words, to=pathlib.Path(f'{base}.json'))
    print(f'page: {len(names)} logs through the desk tool')


if __name__ == '__main__':
    main(*sys.argv[1:])
