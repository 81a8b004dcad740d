"""What the trials of sidecars, cue points and JSON make, and what readers that aren't ours see in a file."""
import json
import os
import pathlib
import struct
import subprocess

from desk_made import noise

TAGS = {b'INAM': b'A title', b'IART': b'The reader', b'ICMT': b'two\nlines', b'ISFT': b'Some Editor 3.2', b'ICRD': b'2026-11-16',
        b'IGNR': b'Speech', b'IPRD': b'An album', b'ITRK': b'7', b'ICOP': 'Möller'.encode()}


def chunk(name, data):
    return name + struct.pack('<I', len(data)) + data + b'\0' * (len(data) % 2)


def bext(description=b'A description', history=b'A=PCM,F=48000,W=24,M=stereo,T=studio\r\n', version=2):
    """EBU Tech 3285: 602 octets, and the coding history."""
    text = description.ljust(256, b'\0') + b'The originator'.ljust(32, b'\0') + b'REFERENCE 1'.ljust(32, b'\0')
    numbers = struct.pack('<IIH', 123456789, 1, version)
    loudness = struct.pack('<5h', -2300, 512, -100, -1512, -1800)
    return chunk(b'bext', text + b'2026-11-16' + b'12:34:56' + numbers + bytes(range(64)) + loudness + bytes(180) + history)


def info(tags=None):
    return chunk(b'LIST', b'INFO' + b''.join(chunk(name, text + b'\0') for name, text in (tags or TAGS).items()))


def cues(points):
    """Of samples and names, numbered from 7 on."""
    table = b''.join(struct.pack('<II4sIII', 7 + at, sample, b'data', 0, 0, sample) for at, (sample, _) in enumerate(points))
    names = b''.join(chunk(b'labl', struct.pack('<I', 7 + at) + name + b'\0') for at, (_, name) in enumerate(points))
    return chunk(b'cue ', struct.pack('<I', len(points)) + table) + chunk(b'LIST', b'adtl' + names)


def sound_file(name, *, before=b'', after=b'', frames=1000, channels=2, bits=24, rate=48000, kind=b'RIFF', samples=None):
    """A WAV or RF64 file of noise with these chunks before and after its sound."""
    octets = bits // 8
    samples = noise(frames * channels, bits) if samples is None else samples
    data = b''.join(sample.to_bytes(octets, 'little', signed=True) for sample in samples)
    form = struct.pack('<HHIIHH', 1, channels, rate, rate * channels * octets, channels * octets, bits)
    body, sound = chunk(b'fmt ', form) + before, data + b'\0' * (len(data) % 2)
    if kind == b'RIFF':
        body = b'WAVE' + body + b'data' + struct.pack('<I', len(data)) + sound + after
        pathlib.Path(name).write_bytes(b'RIFF' + struct.pack('<I', len(body)) + body)
    else:
        rest = body + b'data\xff\xff\xff\xff' + sound + after
        lengths = chunk(b'ds64', struct.pack('<QQQI', 4 + 36 + len(rest), len(data), len(data) // octets // channels, 0))
        pathlib.Path(name).write_bytes(b'RF64\xff\xff\xff\xffWAVE' + lengths + rest)
    return samples


def out_of(*words):
    done = subprocess.run(words, capture_output=True, check=False)
    assert done.returncode == 0, (words, done.stderr)
    return done.stdout


def chunks_of(name):
    """The chunks of WAV and RF64, whose lengths must be those of the file."""
    data = pathlib.Path(name).read_bytes()
    wide = data[:4] == b'RF64'
    length = struct.unpack('<Q', data[20:28])[0] if wide else struct.unpack('<I', data[4:8])[0]
    assert length == len(data) - 8, f'{name}: its length is {len(data)}, and it says {length + 8}'
    at, found = 12, []
    while at < len(data):
        kind, size = data[at:at + 4], struct.unpack('<I', data[at + 4:at + 8])[0]
        if kind == b'data' and wide:
            size = struct.unpack('<Q', data[28:36])[0]
        found.append((kind, data[at + 8:at + 8 + size]))
        assert len(found[-1][1]) == size, f'{name}: {kind!r} is cut'
        at += 8 + size + size % 2
    assert at == len(data), f'{name}: {at} of {len(data)}'
    return found


def fields_of(parts):
    """The fields of LIST INFO."""
    data, = [data for kind, data in parts if kind == b'LIST' and data[:4] == b'INFO']
    at = 4
    while at < len(data):
        size = struct.unpack('<I', data[at + 4:at + 8])[0]
        yield data[at:at + 4], data[at + 8:at + 8 + size]
        at += 8 + size + size % 2


def by_ffprobe(name):
    """The tags and the chapters that ffprobe sees: names, starts and titles."""
    seen = json.loads(out_of('ffprobe', '-v', 'error', '-show_format', '-show_chapters', '-of', 'json', name))
    chapters = [(part['start'], part.get('tags', {}).get('title', '')) for part in seen['chapters']]
    return {key: text for key, text in seen['format'].get('tags', {}).items()}, chapters


def by_sndfile(name):
    """The lines of sndfile-info on bext, INFO and cue points."""
    lines = out_of('sndfile-info', name).decode(errors='replace').split('\n')
    wanted = [line.strip() for line in lines if line.startswith('    ') and ' : ' in line]
    points = [line.split('Chunk')[0].split('Pos')[1] for line in lines if 'Cue ID' in line]
    names = [line.split(' : ', 2)[2] for line in wanted if line.startswith('labl') and line.count(' : ') > 1]
    info_ = sorted(line for line in wanted if line[0] == 'I' and line[4] == ' ')
    broadcast = subprocess.run(['sndfile-info', '--broadcast', name], capture_output=True, check=False).stdout
    return info_, points, names, [line for line in broadcast.decode(errors='replace').split('\n') if name not in line]


def octets_of(document, key):
    """A name of a document: its octets in hex, or as text."""
    return bytes.fromhex(document[key + '_hex']) if key + '_hex' in document else os.fsencode(document[key])
