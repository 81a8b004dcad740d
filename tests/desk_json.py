#!/usr/bin/env python3
"""Documents of JSON, and whether a log carries a file.

usage: desk_json.py PROGRAM SMALL [TRIAL..]

Each document goes through Python's own reader. SMALL isn't asked here.
"""
import json
import os
import pathlib
import subprocess
import sys

from desk_archive_made import octets_of, sound_file
from desk_made import wave, without
from desk_trials import document, ends, ran, run_all

# Names with quotes, line breaks and other signs, of characters beyond ASCII, and of octets that aren't UTF-8.
TEXT = [b'a"b.log', b'a\nb.log', b'\\.log', b'\x01\x7f\t.log', 'ü€😀.log'.encode()]
OCTETS = [b'\xff\xfe.log', b'x\xc3.log', b'\xed\xa0\x80.log', b'\xc0\xaf.log', b'\xf5.log', b'end\xe2\x82', b'\xf4\x90\x80\x80']


def names():
    """They come back as they were, by text or by hex, and each document is one."""
    sound_file('in.wav')
    ends(0, '', 'send', 'in.wav', 'l.log')
    log, odd = pathlib.Path('l.log').read_bytes(), TEXT + OCTETS
    for name in odd:
        pathlib.Path(os.fsdecode(name)).write_bytes(log)
    for name in odd:
        shown = os.fsdecode(name)
        for call in (['receive', shown, 'o.wav', '--force'], ['labels', shown], ['verify', 'in.wav', shown]):
            told = document(*call, '--json')
            assert octets_of(told, 'log') == name and ('log_hex' in told) == (name in OCTETS), (told, name)
            assert name in TEXT or '\ufffd' in told['log']
    shown = list(map(os.fsdecode, odd))
    for command in ('anything', 'sheet'):
        told = document(command, '--json', *shown)
        assert [octets_of(row, 'log') for row in told['logs']] == odd
    lines = [json.loads(line) for line in ran('list', '--json', *shown).stdout.split(b'\n')[:-1]]
    assert [octets_of(line, 'log') for line in lines if 'log' in line] == odd


def letters():
    """Of origin and destination, as they come."""
    sound_file('in.wav')
    ends(0, '', 'send', 'in.wav', 'l.log', '--origin', '"\\,x', '--destination', 'AB')
    blocks = document('labels', '--json', 'l.log')['blocks']
    assert [(row['channel'], row['origin'], row['destination'], row['rate'], row['bits'], row['answer']) for row in blocks] == [
        (1, '"\\,x', 'AB', 48000, 24, 'fits'), (2, '"\\,x', 'AB', 48000, 24, 'fits')]


def flawed_logs():
    """A whole log, one with gaps, damage and a refused cell, torn, refused and empty ones, and what can't be read."""
    sound_file('in.wav', frames=12000)
    ends(0, '', 'send', 'in.wav', 'l.log', '--second', 3)
    log = bytearray(pathlib.Path('l.log').read_bytes())
    log[3 + 49 * 300 + 1 + 4 * 3 + 3] ^= 8  # a bit of the number
    log[3 + 49 * 400 + 1] ^= 0x80
    pathlib.Path('flawed.log').write_bytes(log)
    without('flawed.log', 100, 101, 1998, 1999)
    pathlib.Path('torn.log').write_bytes(pathlib.Path('flawed.log').read_bytes()[:-5])
    pathlib.Path('bad.log').write_bytes(b'\x57\x02\x00' + bytes(log[3:]))
    pathlib.Path('empty.log').write_bytes(b'')
    pathlib.Path('silent.log').write_bytes(bytes(log[:3]))
    return ['l.log', 'flawed.log', 'torn.log', 'bad.log', 'empty.log', 'silent.log', 'nosuch.log', 'none']


def statuses():
    """With and without --json they are the same, and so are the lines on standard error but the summary."""
    for name in flawed_logs():
        for call in (['receive', name, 'o.wav', '--force'], ['receive', name, 'o.wav', '--force', '--strict'],
                     ['receive', name, 'o.wav', '--force', '--bits', '16'], ['receive', name, 'o.flac', '--force', '--cut', '16'],
                     ['labels', name], ['labels', '--rate', '44100', name], ['verify', 'in.wav', name],
                     ['verify', 'nosuch.wav', name], ['anything', name], ['sheet', name], ['list', name],
                     ['list', '--strict', name]):
            plain, told = ran(*call), ran(*call, '--json')
            assert plain.returncode == told.returncode, (call, plain.returncode, told.returncode)
            said = [[line for line in done.stderr.split(b'\n') if line.startswith(b'rimesatchel')] for done in (plain, told)]
            assert said[0] == said[1], call
            parts = told.stdout.split(b'\n')[:-1] if call[0] == 'list' else [told.stdout]
            assert [json.loads(part) for part in parts][-1]['status'] == told.returncode
    for call in (['sheet', '--json', '--plain', 'l.log'], ['list', '--json'], ['verify', '--json', 'in.wav'],
                 ['receive', '--json', 'l.log', 'none/x.w64', '--cues']):
        done = ran(*call)
        assert done.returncode == 64 and done.stdout == b'', call
    for call in (['list', 'l.log'], ['sheet', 'l.log'], ['anything', 'l.log'], ['labels', 'l.log'], ['verify', 'in.wav', 'l.log'],
                 ['receive', 'l.log', 'o.wav', '--force']):
        with open('/dev/full', 'wb') as full:
            done = ran(*call, '--json', stdout=full)
        assert done.returncode == 3 and b'No space left' in done.stderr, call


def received():
    """What the document of `receive` says is what its files and words say."""
    flawed_logs()
    told = document('receive', 'flawed.log', 'o.wav', '--json', '--labels', 'o.txt')
    labels = [line.split('\t')[2] for line in pathlib.Path('o.txt').read_text(encoding='ascii').splitlines()]
    cells = {'sound': 1995, 'missing': 3, 'gaps': 2, 'slipped': 0, 'slips': 0, 'waits': False, 'refused': 1, 'refused_last': 0}
    assert told['cells'] == cells, told['cells']
    assert [(row['refusal'], row['cells']) for row in told['refusals']] == [(8, 1)]
    words = [f'{row["what"]}{"" if row["what"] == "missing" else " in channel 1"}: sample'
             + (f' {row["from"]}' if row['past'] == row['from'] + 1 else f's {row["from"]} to {row["past"] - 1}')
             for row in told['stretches']]
    assert words == labels and told['stretches'][2]['channels'] == [1], (words, labels)
    assert (told['samples'], told['samples_missing'], told['samples_damaged'], told['bits'], told['rate'], told['rate_by']) == (
        1998 * 6, 36, 1, 24, 48000, 'channel status')
    assert told['channel_status'] == {'rates': [48000], 'bits': [24], 'contradicts': False}
    assert document('receive', 'l.log', 'o.wav', '--json', '-F', '--rate', '44100')['channel_status']['contradicts']
    assert document('receive', 'l.log', 'o.wav', '--json', '-F', '--length', '12000')['length_fits']
    assert not document('receive', 'l.log', 'o.wav', '--json', '-F', '--length', '11000')['length_fits']
    assert document('receive', 'l.log', 'o.wav', '--json', '-F', '--cut', '16')['samples_cut'] > 20000
    torn = document('receive', 'torn.log', 'o.wav', '--force', '--json')
    assert (torn['broken']['record'], torn['broken']['refusal'], torn['status']) == (1995, 12, 2)
    for command in (['receive', 'bad.log', 'none/x.wav'], ['labels', 'bad.log'], ['verify', 'in.wav', 'bad.log']):
        assert document(*command, '--json')['refused']['refusal'] == 1


def listed():
    """Sheets, lists and answers say the same in JSON."""
    logs = flawed_logs()
    sheet = document('sheet', '--json', '-q', *logs[:7])
    rows = [line.split(',') for line in ran('sheet', '-q', *logs[:7]).stdout.decode().splitlines()]
    keys = [name.replace(' ', '_') for name in rows[0][1:11]]
    assert len(rows) == 9 and len(sheet['logs']) == 7
    for row, told in zip(rows[1:], sheet['logs'] + [sheet['all']]):
        assert [told[key] for key in keys] == list(map(int, row[1:11]))
        assert told.get('state', '') == row[11]
    lines = [json.loads(line) for line in ran('list', '--json', 'torn.log').stdout.split(b'\n')[:-1]]
    plain = ran('list', 'torn.log').stdout.decode().splitlines()
    again = [f'{line["record"]} {line["answer"]} '
             + (f'{line["missing"]} number {line["number"]}' if 'number' in line else str(line['refusal']))
             for line in lines[:-1]]
    end = lines[-1]
    assert again == plain[1:-1] and plain[0] == f'format {end["format"]} {end["channels"]} {end["order"]}'
    assert plain[-1] == f'end {end["sound"]} sound {end["missing"]} missing {end["refused"]} refused'
    answers = document('anything', '--json', *logs)['logs']
    assert [row['answer'] for row in answers] == ['yes', 'yes', 'yes', 'refused', 'refused', 'no', 'unreadable', 'unreadable']


def records_of(name):
    log = pathlib.Path(name).read_bytes()
    return log[:3], [log[at:at + 49] for at in range(3, len(log), 49)]


def changed(name, records, header=b'\x56\x02\x00'):
    pathlib.Path(name).write_bytes(header + b''.join(records))
    return name


def carried():
    """verify: a yes, and each kind of no."""
    sound_file('in.wav')
    ends(0, '', 'send', 'in.wav', 'l.log')
    _, records = records_of('l.log')
    ends(0, 'yes: 2000 samples agree\n', 'verify', 'in.wav', 'l.log')
    lost = changed('lost.log', records[:50] + records[53:])
    assert ran('verify', 'in.wav', lost).stdout == (
        b'0.006250\t0.006625\tmissing: samples 300 to 317\nno: 1964 of 2000 samples agree; 0 different, 36 missing\n')
    ends(1, ['the log ends 10 samples a channel before the file', 'no: '], 'verify', 'in.wav', changed('late.log', records[2:]))
    ends(0, 'yes: 1976 samples agree', 'verify', 'in.wav', 'late.log', '--from', 12)
    assert ran('verify', 'in.wav', changed('both.log', records[2:50] + records[53:]), '--from', 12).stdout.startswith(
        b'0.006250\t0.006625\tmissing: samples 300 to 317\n')
    ends(1, ['the log ends 10 samples a channel before the file: ', 'no: 1980 of 2000 samples agree; 0 different, 20 missing'],
         'verify', 'in.wav', changed('early.log', records[:165]))
    ends(1, 'the log goes on for 8 samples a channel after the file\'s end, and not with silence', 'verify', 'in.wav',
         changed('more.log', records + records[7:8]))
    damaged = [bytearray(records[10]), bytearray(records[10])]
    damaged[0][1] ^= 0x80
    damaged[1][4] ^= 1  # a protection bit: the sample itself is as it was
    ends(1, ['0.001250\t0.001271\tdamaged in channel 1: sample 60', 'first difference: channel 1, sample 60\n',
             'no: 1999 of 2000 samples agree; 1 different, 0 missing'],
         'verify', 'in.wav', changed('bit.log', records[:10] + damaged[:1] + records[11:]))
    ends(0, ['damaged in channel 1: sample 60', 'yes: 2000 samples agree'], 'verify', 'in.wav',
         changed('protection.log', records[:10] + damaged[1:] + records[11:]))


def carried_otherwise():
    """verify: other files, kinds of file, and statuses 2, 3 and 64."""
    samples = sound_file('in.wav')
    ends(0, '', 'send', 'in.wav', 'l.log')
    header, records = records_of('l.log')
    for kind in ('flac', 'aiff', 'w64', 'rf64'):
        subprocess.run(['sndfile-convert', 'in.wav', f'in.{kind}'], check=True, capture_output=True)
        ends(0, 'yes: 2000', 'verify', f'in.{kind}', 'l.log')
    ends(0, 'yes', 'verify', '-', 'l.log', given=pathlib.Path('in.wav').read_bytes())
    ends(0, 'yes', 'verify', 'in.wav', '-', given=pathlib.Path('l.log').read_bytes())
    samples[1501] ^= 1
    wave('other.wav', samples, 2, 24, 48000)
    ends(1, ['first difference: channel 2, sample 750\n', '1999 of 2000'], 'verify', 'other.wav', 'l.log')
    wave('mono.wav', samples, 1, 24, 48000)
    ends(1, 'no: the log has 2 channels, and the file 1', 'verify', 'mono.wav', 'l.log')
    assert document('verify', '--json', 'mono.wav', 'l.log')['carries'] is False
    ends(0, '', 'send', 'in.wav', 'cut.log', '--format', '54', '--cut')
    ends(1, 'no: ', 'verify', 'in.wav', 'cut.log')
    ends(0, 'yes: 2000', 'verify', 'in.wav', 'cut.log', '--cut')
    wave('long.wav', samples[:1992] + [0] * 12, 2, 24, 48000)  # a whole cell of silence more than the file that is asked for
    wave('part.wav', samples[:1992], 2, 24, 48000)
    ends(0, '', 'send', 'long.wav', 'long.log')
    ends(1, "the log goes on for 6 samples a channel after the file's end\n", 'verify', 'part.wav', 'long.log')
    wave('part.wav', samples[:1992] + [0] * 2, 2, 24, 48000)
    ends(0, 'yes: 1994', 'verify', 'part.wav', 'long.log')
    wave('empty.wav', [], 2, 24, 48000)
    ends(0, 'yes: 0 samples agree', 'verify', 'empty.wav', changed('none.log', []))
    ends(1, 'no: 0 of 2000', 'verify', 'in.wav', 'none.log')
    ends(2, ['broken 12', 'no: '], 'verify', 'in.wav', changed('torn.log', records[:100] + [b'\0abc']))
    ends(2, 'refused 1', 'verify', 'in.wav', changed('bad.log', records, header=b'\x57' + header[1:]))
    ends(3, 'No such file', 'verify', 'nosuch.wav', 'l.log')
    ends(3, 'No such file', 'verify', 'in.wav', 'nosuch.log')
    pathlib.Path('short.wav').write_bytes(pathlib.Path('in.wav').read_bytes()[:2000])
    ends(3, 'is cut off', 'verify', 'short.wav', 'l.log')
    ends(64, 'both', 'verify', '-', '-')
    ends(64, '--from 1001, and it has 1000 samples a channel', 'verify', 'in.wav', 'l.log', '--from', 1001)
    ends(64, 'Usage', 'verify', 'in.wav')
    ends(64, "isn't a number", 'verify', 'in.wav', 'l.log', '--from', '-1')


if __name__ == '__main__':
    if len(sys.argv) < 3:
        sys.exit(__doc__)
    run_all(sys.argv[1:], [names, letters, statuses, received, listed, carried, carried_otherwise], 'documents and verdicts')
