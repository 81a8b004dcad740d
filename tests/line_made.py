"""Lines as files: captures of datagrams read, changed and written, for tests/line_try.py, line_fuzz.py and line_read.py.

Written from the table in docs/DESK.md and not from desk/wire.c, so that the two can differ.
"""
import dataclasses
import pathlib
import random
import struct
import subprocess
import wave

PORT = 6635


@dataclasses.dataclass
class Datagram:
    came: int  # nanoseconds
    octets: bytes
    source: bytes = bytes([127, 0, 0, 1])
    port: int = PORT

    @property
    def sequence(self):
        return int.from_bytes(self.octets[6:8], 'big')

    def numbered(self, sequence):
        return dataclasses.replace(self, octets=self.octets[:6] + sequence.to_bytes(2, 'big') + self.octets[8:])

    def at(self, came):
        return dataclasses.replace(self, came=came)

    def cells(self):
        return [self.octets[at:at + 52] for at in range(8, len(self.octets), 52)]


def after(sequence, by=1):
    return (sequence - 1 + by) % 65535 + 1


def datagram(came, sequence, cells, label=100, circuit=(0, 128)):
    """A datagram of cells, each an indication and 48 octets."""
    vpi, vci = circuit
    length = 56 if len(cells) == 1 else 0
    front = (label << 12 | 1 << 8 | 255).to_bytes(4, 'big') + bytes([0, length]) + sequence.to_bytes(2, 'big')
    return Datagram(came, front + b''.join(
        (vpi << 20 | vci << 4 | cell[0] << 1).to_bytes(4, 'big') + cell[1:] for cell in cells))


def sent(records, group, first=1, rate=8000):
    """The datagrams of a log's records, as play sends them."""
    return [datagram((at + len(records[at:at + group])) * 10**9 // rate, after(first, at // group), records[at:at + group])
            for at in range(0, len(records), group)]


def ipv4(one):
    total = 28 + len(one.octets)
    head = bytearray(struct.pack('>BBHHHBBH', 0x45, 0, total, 0, 0, 64, 17, 0) + one.source + bytes([127, 0, 0, 1]))
    check = sum(struct.unpack('>10H', head))
    check = (check & 0xFFFF) + (check >> 16)
    head[10:12] = (~(check + (check >> 16)) & 0xFFFF).to_bytes(2, 'big')
    return bytes(head) + struct.pack('>HHHH', 49152, one.port, total - 20, 0) + one.octets


def ipv6(one):
    source = bytes(15) + b'\1' if len(one.source) == 4 else one.source
    return (struct.pack('>IHBB', 0x60000000, 8 + len(one.octets), 17, 64) + source + bytes(15) + b'\1' +
            struct.pack('>HHHH', 49152, one.port, 8 + len(one.octets), 1) + one.octets)


LINKS = {
    'raw': (101, lambda one, ip: ip(one)),
    'ethernet': (1, lambda one, ip: bytes(12) + (b'\x08\0' if ip is ipv4 else b'\x86\xdd') + ip(one) + bytes(6)),
    'tagged': (1, lambda one, ip: bytes(12) + b'\x81\0\0\7' + (b'\x08\0' if ip is ipv4 else b'\x86\xdd') + ip(one)),
    'twice': (1, lambda one, ip: bytes(12) + b'\x88\xa8\0\7\x81\0\0\7' + (b'\x08\0' if ip is ipv4 else b'\x86\xdd') + ip(one)),
    'cooked': (113, lambda one, ip: bytes(14) + (b'\x08\0' if ip is ipv4 else b'\x86\xdd') + ip(one)),
}


def capture(datagrams, link='raw', ip=ipv4, order='<', nano=True, packets=()):
    """A capture's octets; `packets` are whole ones, before the datagrams."""
    number, packed = LINKS[link]
    out = struct.pack(order + 'IHHiIII', 0xA1B23C4D if nano else 0xA1B2C3D4, 2, 4, 0, 0, 65536, number)
    for came, packet in [(0, packet) for packet in packets] + [(one.came, packed(one, ip)) for one in datagrams]:
        second, part = divmod(came, 10**9)
        out += struct.pack(order + 'IIII', second, part if nano else part // 1000, len(packet), len(packet)) + packet
    return out


def captured(octets):
    """The datagrams of a capture as play writes it."""
    assert octets[:4] == b'\x4d\x3c\xb2\xa1'
    found, at = [], 24
    while at < len(octets):
        second, part, count, _ = struct.unpack('<IIII', octets[at:at + 16])
        found.append(Datagram(second * 10**9 + part, octets[at + 44:at + 16 + count]))
        at += 16 + count
    return found


def records_of(log):
    octets = pathlib.Path(log).read_bytes()
    assert (len(octets) - 3) % 49 == 0, f'{log} has a part of a record'
    return [octets[at:at + 49] for at in range(3, len(octets), 49)]


def made_log(program, folder, cells, words=(), silent=False, seed=1):
    """A log of 24 bits in two channels: cell i has i as its first sample, and no two records are the same."""
    chance = random.Random(seed)
    sound = bytearray(36 * cells) if silent else bytearray(chance.randbytes(36 * cells))
    for at in range(0 if silent else cells):
        sound[36 * at:36 * at + 3] = at.to_bytes(3, 'little')
    with wave.open(str(folder / 'made.wav'), 'wb') as out:
        out.setparams((2, 3, 48000, 0, 'NONE', ''))
        out.writeframes(bytes(sound))
    subprocess.run([program, 'send', '-q', '-F', str(folder / 'made.wav'), str(folder / 'made.log'), *words], check=True)
    return (folder / 'made.log').read_bytes()


def spoiled_line(datagrams, chance, loss, repeats, late, span):
    """The datagrams as a bad line hands them over: some lost, some twice, some up to `span` nanoseconds late."""
    out = []
    for at, one in enumerate(datagrams):
        if chance.random() < loss:
            continue
        delay = int(chance.random() * span) if chance.random() < late else 0
        out.append((one.came + delay, at, one))
        if chance.random() < repeats:
            out.append((one.came + delay + int(chance.random() * span), at, one))
    out.sort(key=lambda each: each[:2])
    return [one.at(came) for came, _, one in out]
