"""What the trials of the desk tool make and read: WAV files, channel status blocks, and logs without some of their records."""
import pathlib
import random
import struct
import subprocess

# By the subframe octet: bits of a sample, slots in a cell, bits of the sound file.
FORMATS = {
    0x02: (8, 48, 16), 0x04: (16, 24, 16), 0x06: (24, 16, 24), 0x08: (32, 12, 32),
    0x43: (12, 24, 16), 0x45: (20, 16, 24), 0x47: (28, 12, 32),
    0x13: (12, 24, 16), 0x15: (20, 16, 24), 0x17: (28, 12, 32),
    0x52: (8, 24, 16), 0x54: (16, 16, 16), 0x56: (24, 12, 24), 0x5A: (40, 8, 64),
}
RECORD = 49
HZ_48000, HZ_44100, HZ_32000 = 0x80, 0x40, 0xC0  # bits 6 and 7 of octet 0 of channel status
CHANCE = random.Random(42)


def wave(name, samples, channels, bits, rate):
    """A WAV file of whole numbers."""
    octets = bits // 8
    data = b''.join(sample.to_bytes(octets, 'little', signed=True) for sample in samples)
    pad = b'\0' * (len(data) % 2)
    head = struct.pack('<HHIIHH', 1, channels, rate, rate * channels * octets, channels * octets, bits)
    body = b'WAVEfmt ' + struct.pack('<I', 16) + head + b'data' + struct.pack('<I', len(data)) + data + pad
    pathlib.Path(name).write_bytes(b'RIFF' + struct.pack('<I', len(body)) + body)


def read_wave(name):
    """Bits, sampling frequency, channels and samples of a WAV file."""
    data = pathlib.Path(name).read_bytes()
    assert data[:4] == b'RIFF' and data[8:12] == b'WAVE', data[:12]
    assert struct.unpack("<I", data[4:8])[0] == len(data) - 8, name
    at, chunks = 12, {}
    while at < len(data):
        kind, length = data[at:at + 4], struct.unpack('<I', data[at + 4:at + 8])[0]
        chunks[kind] = data[at + 8:at + 8 + length]
        at += 8 + length + length % 2
    assert not any(chunks.get(b'PEAK', bytes(8))[4:8]), 'the time of day is in the file'
    code, channels, rate, _, frame, bits = struct.unpack('<HHIIHH', chunks[b'fmt '][:16])
    if code == 0xFFFE:
        code = struct.unpack('<H', chunks[b'fmt '][24:26])[0]
    sound, width = chunks[b'data'], frame // channels
    assert code == (3 if bits == 64 else 1) and width * 8 == bits and len(sound) % frame == 0
    if bits == 64:
        return bits, rate, channels, [value for value, in struct.iter_unpack('<d', sound)]
    return bits, rate, channels, [int.from_bytes(sound[at:at + width], 'little', signed=True)
                                  for at in range(0, len(sound), width)]


def by_sox(name):
    """The samples of a sound file as 32 bits, by another reader."""
    raw = subprocess.run(['sox', name, '-t', 's32', '-'], capture_output=True, check=True).stdout
    return [value for value, in struct.iter_unpack('<i', raw)]


def rate_of(name):
    return int(subprocess.run(['soxi', '-r', name], capture_output=True, check=True).stdout)


def check_character(octets):
    """Of octets 0 to 22 of channel status: source document 002, Appendix 2."""
    register = 0xFF
    for octet in octets[:23]:
        for bit in range(8):
            turned = (register ^ octet >> bit) & 1
            register = register >> 1 ^ (0xB8 if turned else 0)
    return register


def block(rate_code=0, use=1, length=0x2C, flags=0, fits=True):
    """A channel status block as bits."""
    octets = bytearray(24)
    octets[0], octets[2], octets[22] = use | rate_code, length, flags
    octets[23] = check_character(octets) if fits else check_character(octets) ^ 1
    return [octets[at // 8] >> at % 8 & 1 for at in range(192)]


def carried(times, blocks):
    """Ancillary numbers of as many sample times: for each channel pairs of a time and the block that begins there."""
    ancillary = [0] * (times * len(blocks))
    for channel, begins in enumerate(blocks):
        for start, bits in begins:
            for at, bit in enumerate(bits):
                if start + at < times:
                    ancillary[(start + at) * len(blocks) + channel] = (8 if at == 0 else 0) | 4 * bit
    return ancillary


def noise(count, bits):
    """Samples of all the range, its ends among them."""
    ends_ = [-1 << bits - 1, (1 << bits - 1) - 1, 0, -1, 1]
    return ends_ + [CHANCE.randrange(-1 << bits - 1, 1 << bits - 1) for _ in range(count - len(ends_))]


def without(log, *gone):
    """A log without some of its records."""
    data = pathlib.Path(log).read_bytes()
    records = [data[at:at + RECORD] for at in range(3, len(data), RECORD)]
    pathlib.Path(log).write_bytes(data[:3] + b''.join(record for at, record in enumerate(records) if at not in gone))
