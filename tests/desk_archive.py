#!/usr/bin/env python3
"""What archivists keep beside the samples: sidecars, cue points and sums.

usage: desk_archive.py PROGRAM SMALL [TRIAL..]

SMALL is the same tool with room for 20,000 octets in a plain WAV file. Files are judged by sndfile-info, ffprobe, sox and
metaflac.
"""
import hashlib
import json
import os
import pathlib
import struct
import subprocess
import sys

from desk_archive_made import (
    TAGS, bext, by_ffprobe, by_sndfile, chunk, chunks_of, cues, fields_of, info, octets_of, out_of, sound_file)
from desk_made import by_sox, without
from desk_trials import Tool, document, document_of, empty, ends, ran, run_all

POINTS = [(0, b'start'), (12, b''), (500, 'Kapitel ä'.encode()), (999, b'\xff not UTF-8')]


def kept_beside(kind, channels, frames, before):
    """bext, INFO and cue points of one file, back in WAV and in RF64."""
    name, where = f'in.{"wav" if kind == b"RIFF" else "rf64"}', 'before' if before else 'after'
    sound_file(name, kind=kind, channels=channels, frames=frames, **{where: bext() + info() + cues(POINTS)})
    if kind == b'RF64' and channels == 1 and not before:  # libsndfile reads nothing behind an odd number of octets there
        ends(0, 'keeps 4 cue points; not kept: bext, INFO INAM, INFO IART, ', 'send', name, 'l.log', '-k', 'j.json', '-F')
        return
    ends(0, 'j.json: keeps bext, 9 tags, 4 cue points\n', 'send', name, 'l.log', '--sidecar', 'j.json', '--force')
    for back in ('back.wav', 'back.rf64'):
        ends(0, ['the samples are those that j.json tells of, by their MD5', f'{frames} samples a channel'],
             'receive', 'l.log', back, '--sidecar', 'j.json', '--force', '--strict')
        parts = chunks_of(back)
        assert by_sox(back) == by_sox(name)
        assert [part for part in parts if part[0] == b'bext'] == [(b'bext', bext()[8:])]
        assert sorted(fields_of(parts)) == sorted((name, text + b'\0') for name, text in TAGS.items())
        assert by_ffprobe(back) == by_ffprobe(name), (by_ffprobe(back), by_ffprobe(name))
    if kind == b'RIFF':  # libsndfile has no cue points of RF64, and loses the name behind an empty one
        ours, theirs = by_sndfile('back.wav'), by_sndfile(name)
        assert ours[:2] + ours[3:] == theirs[:2] + theirs[3:] and len(ours[0]) == 9 and len(ours[1]) == 4, (ours, theirs)
        assert ours[2] == [name.decode(errors='replace') for _, name in POINTS if name], ours
    if channels == 2:
        assert by_sndfile('back.rf64')[0] == by_sndfile('back.wav')[0]


def kept_in_wav():
    """Before and behind the sound, in WAV and RF64, of even and odd lengths."""
    for kind in (b'RIFF', b'RF64'):
        for channels, frames in ((2, 1000), (1, 1003)):
            for before in (True, False):
                kept_beside(kind, channels, frames, before)
    tags, chapters = by_ffprobe('back.wav')
    assert chapters[0] == (0, 'start') and tags['coding_history'].endswith('T=studio\r\n')


def kept_octets():
    """Octets that aren't text."""
    odd = bext(bytes(range(128, 256)) + b'\0x', b'\xe9\0\0y\r\n')[8:]
    sound_file('in.wav', before=chunk(b'bext', odd) + info({b'INAM': b'\xe9t\xe9', b'IGNR': b'"\\\n\x01'}))
    ends(0, 'keeps bext, 2 tags', 'send', 'in.wav', 'l.log', '--sidecar', 'j.json')
    kept = document_of('j.json')
    assert kept['bext']['description_hex'].startswith('8081') and kept['bext']['coding_history_hex'] == 'e90000790d0a'
    assert kept['tags']['title'] == '\ufffdt\ufffd' and kept['tags']['title_hex'] == b'\xe9t\xe9'.hex()
    ends(0, 'by their MD5', 'receive', 'l.log', 'out.wav', '--sidecar', 'j.json')
    parts = chunks_of('out.wav')
    assert dict(parts)[b'bext'] == odd
    assert sorted(fields_of(parts)) == [(b'IGNR', b'"\\\n\x01\0'), (b'INAM', b'\xe9t\xe9\0')]


def kept_in_other_kinds():
    """FLAC has its ten tags, AIFF five of them and cue points, W64 and a pipe nothing; what isn't held is said."""
    sound_file('in.wav', after=bext() + info() + cues(POINTS[:1]))
    ends(0, '', 'send', 'in.wav', 'l.log', '--sidecar', 'j.json')

    def held(name, words):
        said = ran('receive', 'l.log', name, '-k', 'j.json')
        wanted = f"such a file doesn't hold what j.json keeps: {words}\n"
        assert said.returncode == 0 and wanted.encode() in said.stderr, said.stderr
    held('out.flac', 'bext, 1 cue point')
    shown = out_of('metaflac', '--export-tags-to=-', 'out.flac').decode().split('\n')
    tags = {key.upper(): text for key, _, text in (line.partition('=') for line in shown)}
    assert (tags['TITLE'], tags['ARTIST'], tags['TRACKNUMBER'], tags['GENRE']) == ('A title', 'The reader', '7', 'Speech'), tags
    assert out_of('metaflac', '--show-md5sum', 'out.flac').decode().strip() == document_of('j.json')['md5']
    held('out.aiff', 'bext, 4 tags')
    seen = out_of('sndfile-info', 'out.aiff').decode()
    for word in ('NAME : A title', 'AUTH : The reader', 'start'):
        assert word in seen, seen
    held('out.w64', 'bext, 9 tags, 1 cue point')
    held('-', 'bext, 9 tags, 1 cue point')


def kept_of_other_kinds():
    """From FLAC and AIFF."""
    sound_file('in.wav')
    subprocess.run(['sox', 'in.wav', 'in.flac'], check=True)
    subprocess.run(['metaflac', '--remove-all-tags', '--set-tag=TITLE=T', '--set-tag=LICENSE=L', '--set-tag=ALBUM=A', 'in.flac'],
                   check=True)
    ends(0, 'f.json: keeps 3 tags', 'send', 'in.flac', 'f.log', '--sidecar', 'f.json')
    assert document_of('f.json')['tags'] == {'title': 'T', 'license': 'L', 'album': 'A'}
    assert document_of('f.json')['md5'] == out_of('metaflac', '--show-md5sum', 'in.flac').decode().strip()
    ends(0, "f.wav: such a file doesn't hold what f.json keeps: 1 tag\n", 'receive', 'f.log', 'f.wav', '--sidecar', 'f.json')
    assert by_ffprobe('f.wav')[0] == {'title': 'T', 'album': 'A'}
    sound_file('in.wav', after=info() + cues(POINTS[:1]))
    ends(0, '', 'send', 'in.wav', 'l.log', '--sidecar', 'j.json')
    ends(0, '', 'receive', 'l.log', 'in.aiff', '--sidecar', 'j.json')
    ends(0, 'a.json: keeps 5 tags, 1 cue point', 'send', 'in.aiff', 'a.log', '--sidecar', 'a.json')
    assert document_of('a.json')['cues'] == [{'at': 0, 'name': 'start'}]


def told_as_dropped():
    """One line on what a log doesn't carry."""
    fields = info({b'INAM': b'x', b'ISBJ': b'y'})
    sound_file('in.wav', after=bext() + fields + cues(POINTS) + chunk(b'iXML', b'<x/>') + chunk(b'axml', b''))
    said = ends(0, "in.wav: a log doesn't carry bext, 1 tag, 4 cue points (--sidecar keeps that); nor INFO ISBJ, iXML, axml\n",
                'send', 'in.wav', 'l.log')
    assert sum("doesn't carry" in line for line in said.split('\n')) == 1
    ends(0, 'j.json: keeps bext, 1 tag, 4 cue points; not kept: INFO ISBJ, iXML, axml\n',
         'send', 'in.wav', 'l.log', '--sidecar', 'j.json', '--force')
    assert ran('send', '-q', 'in.wav', 'l.log', '--force').stderr == b''
    sound_file('plain.wav')
    assert "doesn't carry" not in ends(0, '', 'send', 'plain.wav', 'l.log', '--force')
    sound_file('chunk.wav', before=chunk(b'iXML', b'<x/>'))
    ends(0, "chunk.wav: a log doesn't carry iXML\n", 'send', 'chunk.wav', 'l.log', '--force')
    subprocess.run(['sox', 'plain.wav', 'in.flac'], check=True)
    dots = struct.pack('>I', 13) + b'IHDR' + struct.pack('>IIBBBBB', 1, 1, 8, 2, 0, 0, 0)
    pathlib.Path('p.png').write_bytes(b'\x89PNG\r\n\x1a\n' + dots)
    subprocess.run(['metaflac', '--remove-all-tags', '--set-tag=TITLE=T', '--set-tag=NARRATOR=N', '--import-picture-from=p.png',
                    'in.flac'], check=True, capture_output=True)
    ends(0, "in.flac: a log doesn't carry 1 tag (--sidecar keeps that); nor NARRATOR, PICTURE\n",
         'send', 'in.flac', 'l.log', '--force')


def many_cues():
    """More than libsndfile gives, and more than are read."""
    many = [(at % 1000, b'%d' % at) for at in range(3000)]
    sound_file('in.wav', after=cues(many))
    ends(0, 'j.json: keeps 3000 cue points', 'send', 'in.wav', 'l.log', '--sidecar', 'j.json')
    assert [(point['at'], point['name'].encode()) for point in document_of('j.json')['cues']] == many
    ends(0, '', 'receive', 'l.log', 'many.rf64', '--sidecar', 'j.json')
    assert len(by_ffprobe('many.rf64')[1]) == 3000
    for count in (2500, 3000, 20000):  # libsndfile would write an AIFF file that can't be read
        sound_file('in.wav', after=cues([(at % 1000, b'%d' % at) for at in range(count)]))
        ends(0, '', 'send', 'in.wav', 'l.log', '--sidecar', 'j.json', '--force')
        said = ends(0, '', 'receive', 'l.log', 'many.aiff', '--sidecar', 'j.json', '--force')
        assert (f'keeps: {count} cue points' in said) == (count > 2500) and by_sox('many.aiff') == by_sox('in.wav')
    sound_file('in.wav')
    ends(0, '', 'send', 'in.wav', 'l.log', '--sidecar', 'j.json', '--force')
    texts = {key: key[0] * 65000 for key in ('title', 'artist', 'comment', 'genre', 'license')}
    pathlib.Path('j.json').write_text(json.dumps(document_of('j.json') | {'tags': texts}), encoding='utf-8')
    for ending, words in (('aiff', 'keeps: 5 tags'), ('flac', ''), ('wav', ''), ('rf64', '')):
        ends(0, words, 'receive', 'l.log', f'long.{ending}', '--sidecar', 'j.json')
        assert by_sox(f'long.{ending}') == by_sox('in.wav')
    assert len(out_of('metaflac', '--export-tags-to=-', 'long.flac')) > 5 * 65000
    sound_file('in.wav', after=cues([(0, b'')] * 65537))
    ends(0, 'j.json: keeps nothing beside the samples; not kept: cue\n', 'send', 'in.wav', 'l.log', '-k', 'j.json', '-F')


def sums_of_samples():
    """The MD5 is that of the samples as they stand in a file, for all bits; and as FLAC has it."""
    for bits in (16, 24, 32):
        for channels in (1, 2, 5):
            samples = sound_file('in.wav', bits=bits, channels=channels, frames=777)
            raw = b''.join(sample.to_bytes(bits // 8, 'little', signed=True) for sample in samples)
            ends(0, '', 'send', 'in.wav', 'l.log', '--sidecar', 'j.json', '--force', '--format', '08')
            kept = document_of('j.json')
            assert kept['md5'] == hashlib.md5(raw).hexdigest()
            assert [kept[key] for key in ('sidecar', 'channels', 'length', 'rate', 'bits', 'file')] == [
                1, channels, 777, 48000, bits, 'in.wav']
            ends(0, 'by their MD5', 'receive', 'l.log', 'out.wav', '--sidecar', 'j.json', '--force', '--strict')
            assert by_sox('out.wav') == by_sox('in.wav')
    subprocess.run(['sox', '-V1', '-D', 'in.wav', '-b', '8', 'eight.wav', 'vol', '0.5'], check=True)
    ends(0, '', 'send', 'eight.wav', 'l.log', '--sidecar', 'j.json', '--force')
    subprocess.run(['sox', '-D', 'eight.wav', 'eight.flac'], check=True)
    assert document_of('j.json')['md5'] == out_of('metaflac', '--show-md5sum', 'eight.flac').decode().strip()
    ends(0, 'by their MD5', 'receive', 'l.log', 'out.wav', '--sidecar', 'j.json', '--force', '--strict')


def taken_from_the_sidecar():
    """Frequency, length and bits: --rate, --length, --bits and --cut go before it. A log by a pipe, and a sidecar."""
    samples = sound_file('in.wav', bits=16, rate=96000, frames=1000)
    ends(0, '', 'send', 'in.wav', 'l.log', '--sidecar', 'j.json')
    for given in (None, pathlib.Path('l.log').read_bytes()):
        name = 'l.log' if given is None else '-'
        ends(0, '1000 samples a channel, 0.010 s at 96000 Hz, by the sidecar', 'receive', name, 'out.wav', '-k', 'j.json', '-F',
             '--strict', given=given)
        assert out_of('soxi', '-b', 'out.wav').strip() == b'16' and by_sox('out.wav') == [sample << 16 for sample in samples]
    ends(0, 'by their MD5', 'receive', 'l.log', 'out.flac', '-k', '-', given=pathlib.Path('j.json').read_bytes())
    ends(0, '1002 samples a channel, 0.023 s at 44100 Hz', 'receive', 'l.log', 'out.wav', '-k', 'j.json', '-F', '--rate', 44100,
         '--length', 1002, '--bits', 24)
    assert out_of('soxi', '-b', 'out.wav').strip() == b'24'
    ends(0, '', 'receive', 'l.log', 'out.wav', '-k', 'j.json', '-F', '--cut', 16)


def other_than_the_sidecar():
    """Channel status, low bits, length and samples that a sidecar contradicts."""
    sound_file('in.wav', rate=44100)
    ends(0, '', 'send', 'in.wav', 'l.log', '--sidecar', 'j.json')
    kept = document_of('j.json')
    pathlib.Path('other.json').write_text(json.dumps(kept | {'bits': 16, 'rate': 48000}), encoding='utf-8')
    said = ends(1, ["channel status says 44100 Hz in 10 blocks, the first of them in channel 1: the sidecar's 48000 Hz is used",
                    "samples have bits that aren't 0 below the 16 of other.json: the file has those of the format",
                    "these aren't the samples of the file that other.json tells of"],
                'receive', 'l.log', 'out.wav', '-k', 'other.json', '--strict')
    assert 'by their MD5' not in said and out_of('soxi', '-b', 'out.wav').strip() == b'24'
    assert by_sox('out.wav') == by_sox('in.wav')
    ends(0, "these aren't the samples", 'receive', '-q', 'l.log', 'out.wav', '-k', 'other.json', '-F')
    for key, value in {'md5': '0' * 32, 'length': 999, 'channels': 1, 'length ': 5000}.items():
        pathlib.Path('other.json').write_text(json.dumps(kept | {key.strip(): value}), encoding='utf-8')
        ends(1, "these aren't the samples", 'receive', '-q', 'l.log', 'out.wav', '-k', 'other.json', '-F', '--strict')
        assert document('receive', 'l.log', 'out.wav', '-k', 'other.json', '-F', '--json')['sidecar']['agrees'] is False
    ends(0, "the sidecar's length 5000 isn't in the last cell", 'receive', 'l.log', 'out.wav', '-F', '-k', 'other.json')
    samples = sound_file('in.wav', bits=16)  # the same top bits, and others below them in the log
    ends(0, '', 'send', 'in.wav', 'l.log', '--sidecar', 'j.json', '--force')
    sound_file('more.wav', samples=[256 * sample + at % 2 for at, sample in enumerate(samples)])
    ends(0, '', 'send', 'more.wav', 'l.log', '--force')
    ends(1, 'the MD5 of those is', 'receive', 'l.log', 'out.wav', '-k', 'j.json', '-F', '--strict')
    ends(2, '', 'receive', '-', 'none/x.wav', '-k', 'other.json', given=b'\x56\x02\x07')
    empty()


# Values that a member can't have.
WRONG = {
    'sidecar': (0, 2, '1', None), 'channels': (0, -1, 1.5, '2', 1 << 40), 'length': (-1, '1', (1 << 63) - 1, 1e3),
    'rate': (0, -48000, '48000', 1 << 33), 'bits': (0, 33, -1, '24', True), 'md5': ('', 'x' * 32, 'A' * 32, 'a' * 31, 5),
    'bext': (0, [], 'x', {'description': 5}, {'description': 'x' * 257}, {'umid_hex': 'f'}, {'umid_hex': 'zz'},
             {'version': 1 << 16}, {'umid_hex': 'ff' * 65}, {'time_reference_low': -1}, {'coding_history': 'x' * 70000},
             {'description_hex': 1}),
    'tags': (0, [], {'title': 1}, {'title_hex': '00'}, {'title': 'x' * 70000}),
    'cues': (0, {}, [1], [{}], [{'at': -1}], [{'at': 1 << 32}], [{'at': '1'}], [{'at': 1, 'length': -1}], [{'at': 1, 'name': 1}],
             [{'at': 1}] * 65537)}


def spoiled_sidecars():
    """What isn't a sidecar is 2, and nothing is written. Members that aren't known are left."""
    sound_file('in.wav', after=bext() + info() + cues(POINTS))
    ends(0, '', 'send', 'in.wav', 'l.log', '--sidecar', 'j.json')
    kept = document_of('j.json')
    text = json.dumps(kept).encode()

    def wrong(content, words="isn't a sidecar"):
        pathlib.Path('w.json').write_bytes(content if isinstance(content, bytes) else json.dumps(content).encode())
        ends(2, words, 'receive', 'l.log', 'none/x.wav', '--sidecar', 'w.json', '--labels', 'none/l', '--cues')
        empty()
    for content in (b'', b'{', b'[]', b'null', b'1', b'{}', b'\xff', b'"x"', b'[' * 5000, b'{"sidecar": 1, "sidecar": 1}',
                    text + b'x', text[:-1], b' ' * (1 << 26), pathlib.Path('in.wav').read_bytes(), text[:-1] + b', "bits": 24}',
                    json.dumps(kept | {'tags': {'title': 'x\0y'}}).encode()):
        wrong(content)
    for key, values in WRONG.items():
        for value in values:
            wrong(kept | {key: value}, f'its member {key} ')
    for key in ('sidecar', 'channels', 'length', 'rate', 'bits', 'md5'):
        wrong({name: value for name, value in kept.items() if name != key}, f'its member {key} ')
    pathlib.Path('w.json').write_text(json.dumps(kept | {'file': 'x', 'more': [1, {'a': None}]}), encoding='utf-8')
    ends(0, 'by their MD5', 'receive', 'l.log', 'out.wav', '--sidecar', 'w.json', '--strict')


def wrong_calls():
    """Sidecars that can't be read or written, and names given twice."""
    sound_file('in.wav')
    ends(0, '', 'send', 'in.wav', 'l.log', '--sidecar', 'j.json')
    pathlib.Path('cut.wav').write_bytes(pathlib.Path('in.wav').read_bytes()[:500])
    ends(3, 'No such file', 'receive', 'l.log', 'none/x.wav', '--sidecar', 'nosuch.json')
    ends(3, 'Is a directory', 'receive', 'l.log', 'none/x.wav', '--sidecar', 'none')
    ends(64, 'are one file', 'receive', 'l.log', 'none/x.wav', '--sidecar', 'j.json', '--labels', './j.json', '--force')
    ends(64, 'named twice', 'send', 'in.wav', 'none/l.log', '--sidecar', 'none/l.log')
    ends(64, 'both', 'receive', '-', 'none/x.wav', '--sidecar', '-')
    ends(3, 'is there already', 'send', 'in.wav', 'none/l.log', '--sidecar', 'j.json')
    ends(3, 'is cut off', 'send', 'cut.wav', 'none/l.log', '--sidecar', 'none/j.json')
    for name in ('none/x.flac', 'none/x.aiff', 'none/x.w64', '-'):
        ends(64, 'only a .wav or .rf64 file holds them', 'receive', 'l.log', name, '--cues')
    environment = os.environ | {'TMPDIR': os.path.abspath('nowhere')}  # a log that is read twice is kept there
    with open('l.log', 'rb') as log:
        done = subprocess.run(['sh', '-c', 'cat | "$0" receive - none/x.wav -k j.json', Tool.program], stdin=log, env=environment,
                              capture_output=True, check=False)
    assert done.returncode == 3 and b"can't be kept there" in done.stderr, done.stderr
    empty()


def cues_of_gaps():
    """Each stretch is a cue point, with its words and its length, for sndfile-info, ffprobe and sox."""
    sound_file('in.wav', after=cues(POINTS), frames=6000, channels=1)
    ends(0, '', 'send', 'in.wav', 'l.log', '--sidecar', 'j.json')
    without('l.log', 100, 101, 200)
    log = bytearray(pathlib.Path('l.log').read_bytes())
    log[3 + 49 * 10 + 1] ^= 0x80
    pathlib.Path('l.log').write_bytes(log)
    words = [(120, 'damaged in channel 1: sample 120'), (1200, 'missing: samples 1200 to 1223'),
             (2400, 'missing: samples 2400 to 2411')]
    for ending in ('wav', 'rf64'):
        ends(1, '', 'receive', 'l.log', f'plain.{ending}', '--strict')
        ends(1, '', 'receive', 'l.log', f'out.{ending}', '--strict', '--cues')
        assert by_ffprobe(f'out.{ending}')[1] == words, by_ffprobe(f'out.{ending}')
        assert by_sox(f'out.{ending}') == by_sox(f'plain.{ending}')
        ours, plain = dict(chunks_of(f'out.{ending}')), dict(chunks_of(f'plain.{ending}'))
        assert ours[b'LIST'].count(b'ltxt') == 3 and b'ltxt\x14\0\0\0\x02\0\0\0\x18\0\0\0rgn ' in ours[b'LIST']
        assert {kind: data for kind, data in ours.items() if kind not in (b'LIST', b'cue ', b'ds64')} == {
            kind: data for kind, data in plain.items() if kind != b'ds64'}
    assert by_sndfile('out.wav')[2] == [text for _, text in words], by_sndfile('out.wav')
    assert [int(point.strip(' :')) for point in by_sndfile('out.wav')[1]] == [at for at, _ in words]
    ends(0, '', 'receive', 'l.log', 'both.wav', '--cues', '--sidecar', 'j.json')
    assert sorted(by_ffprobe('both.wav')[1]) == sorted(by_ffprobe('in.wav')[1] + words)
    ends(0, 'again.json: keeps 3 cue points', 'send', 'out.wav', 'again.log', '--sidecar', 'again.json')
    assert document_of('again.json')['cues'] == [
        {'at': at, 'length': length, 'name': text} for (at, text), length in zip(words, (1, 24, 12))]
    ends(0, '', 'receive', 'again.log', 'again.wav', '--sidecar', 'again.json')
    assert dict(chunks_of('again.wav'))[b'LIST'] == dict(chunks_of('out.wav'))[b'LIST']
    sound_file('fine.wav')
    ends(0, '', 'send', 'fine.wav', 'fine.log')
    ends(0, '', 'receive', 'fine.log', 'a.wav')
    ends(0, '', 'receive', 'fine.log', 'b.wav', '--cues')
    assert pathlib.Path('a.wav').read_bytes() == pathlib.Path('b.wav').read_bytes()


def cues_too_many():
    """4,096 of 4,999 are shown, and what isn't is said; a sidecar's points come before them."""
    sound_file('in.wav', after=cues(POINTS), frames=120000, channels=1)
    ends(0, '', 'send', 'in.wav', 'l.log', '--sidecar', 'j.json')
    without('l.log', *range(1, 10000, 2))
    done = ran('receive', '-q', 'l.log', 'out.wav', '--cues', '--labels', 'l.txt')
    lines = pathlib.Path('l.txt').read_text(encoding='ascii').splitlines()
    assert len(lines) == 4999 and done.returncode == 0 and done.stderr.count(b'\n') == 1
    assert done.stderr.endswith(b': out.wav: 903 more stretches are missing or damaged than the 4096 that cue points show\n')
    assert [text for _, text in by_ffprobe('out.wav')[1]] == [line.split('\t')[2] for line in lines[:4096]]
    told = document('receive', 'l.log', 'out.rf64', '--cues', '--json', '--sidecar', 'j.json')
    assert (told['cues'], told['cues_left_out'], len(told['stretches'])) == (4096, 903, 4999) and not told['sidecar']['agrees']
    assert len(by_ffprobe('out.rf64')[1]) == 4100 and len(by_sox('out.rf64')) == told['samples']


def cues_without_room():
    """A plain WAV file has at most 4 GB (20,000 octets in the small tool): there cue points are left out, and that is said."""
    sound_file('in.wav', frames=3294, channels=2)
    ends(0, '', 'send', 'in.wav', 'l.log')
    without('l.log', 100, 200)
    ends(0, 'so close to 4 GB WAV has no room', 'receive', 'l.log', 'out.wav', '--cues', tool=Tool.small)
    assert b'cue ' not in dict(chunks_of('out.wav')) and len(by_sox('out.wav')) == 2 * 3294
    ends(0, '', 'receive', 'l.log', 'out.rf64', '--cues', tool=Tool.small)
    assert b'cue ' in dict(chunks_of('out.rf64'))


def sums_of_files():
    """As sha256sum prints them, whatever the name."""
    sound_file('in.wav')
    ends(0, '', 'send', 'in.wav', 'l.log')
    for name in ('out.wav', 'out.flac', 'out.aiff', 'a b.w64', 'a\\b.wav', 'a\nb\r.wav', os.fsdecode(b'\xff.rf64')):
        done = ran('receive', '-q', 'l.log', name, '--sum')
        assert done.returncode == 0 and done.stdout == out_of('sha256sum', os.fsencode(name)), (name, done.stdout, done.stderr)
        subprocess.run(['sha256sum', '--check', '--strict', '--status'], input=done.stdout, check=True)
        told = document('receive', 'l.log', name, '--sum', '--json', '--force')
        assert told['sha256'] == hashlib.sha256(pathlib.Path(name).read_bytes()).hexdigest()
        assert octets_of(told, 'output') == os.fsencode(name)
    for more in (['--json'], ['--sum'], ['--json', '--sum']):
        ends(64, 'standard output', 'receive', 'l.log', '-', *more)
        ends(64, 'standard output', 'receive', 'l.log', 'none/x.wav', '--labels', '-', *more)
    ends(64, 'are one file', 'receive', 'l.log', '/dev/stdout', '--force', '--json')
    os.mkfifo('pipe.wav')
    ends(64, "can't be read back", 'receive', 'l.log', 'pipe.wav', '--force', '--sum')
    with open('/dev/full', 'wb') as full:
        done = ran('receive', '-q', 'l.log', 'out.wav', '--sum', '--force', stdout=full)
    assert done.returncode == 3 and b'No space left' in done.stderr
    empty()


if __name__ == '__main__':
    if len(sys.argv) < 3:
        sys.exit(__doc__)
    run_all(sys.argv[1:], [
        kept_in_wav, kept_octets, kept_in_other_kinds, kept_of_other_kinds, told_as_dropped, many_cues, sums_of_samples,
        taken_from_the_sidecar, other_than_the_sidecar, spoiled_sidecars, wrong_calls, cues_of_gaps, cues_too_many,
        cues_without_room, sums_of_files], 'what archivists keep')
