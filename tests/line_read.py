#!/usr/bin/env python3
"""Another's reading of what play writes: tshark's, of a capture, against the log that was played.

usage: line_read.py PROGRAM [CELLS]
"""
import pathlib
import subprocess
import sys
import tempfile

import line_made as made

FIELDS = ['mpls.label', 'pw.cw.seqno', 'pw.atm.n1_cw.cells', 'atm.vpi', 'atm.vci', 'atm.pti', 'atm.clp', 'data.data',
          '_ws.expert.message', 'ip.checksum.status']
# RFC 4385 wants the length of a short packet in the control word; tshark wants 0 in this encapsulation.
SHORT = 'Bad Length: must be 0 for this encapsulation'


def read(capture, label):
    words = ['tshark', '-n', '-r', str(capture), '-d', f'mpls.label=={label},mplspwatmn1cw', '-o', 'ip.check_checksum:TRUE',
             '-T', 'fields']
    for field in FIELDS:
        words += ['-e', field]
    done = subprocess.run(words, capture_output=True, text=True, check=True)
    return [(line.split('\t') + [''] * len(FIELDS))[:len(FIELDS)] for line in done.stdout.splitlines()]


def compare(program, folder, log, group, label, circuit):
    capture = folder / 'read.pcap'
    subprocess.run([program, 'play', '-q', '-F', str(folder / 'made.log'), '--capture', str(capture), '--group', str(group),
                    '--label', str(label), '--circuit', '/'.join(map(str, circuit))], check=True)
    records = [log[at:at + 49] for at in range(3, len(log), 49)]
    found, expected = [], 1
    for name, number, cells, vpi, vci, types, priorities, octets, remark, check in read(capture, label):
        types, octets = types.split(','), octets.split(',')
        known = SHORT if group == 1 else ''
        assert (name, int(number), remark, check) == (str(label), expected, known, '1'), (name, number, expected, remark, check)
        assert set(vpi.split(',')) == {str(circuit[0])} and set(vci.split(',')) == {str(circuit[1])}, (vpi, vci)
        assert set(priorities.split(',')) == {'0'} and int(cells) == len(types) == len(octets) <= group
        found += [bytes([int(kind)]) + bytes.fromhex(cell) for kind, cell in zip(types, octets)]
        expected = made.after(expected)
    assert found == records, 'tshark reads other cells'
    return len(found)


def main(program, cells=40000):
    with tempfile.TemporaryDirectory() as name:
        folder = pathlib.Path(name)
        log = made.made_log(program, folder, int(cells), ('--second', '3'))
        read_ = compare(program, folder, log, 4, 100, (0, 128))
        short = log[:3 + 49 * 280]
        (folder / 'made.log').write_bytes(short)
        for group, label, circuit in ((1, 16, (4095, 65535)), (7, 1048575, (1, 32)), (14, 100, (0, 128))):
            compare(program, folder, short, group, label, circuit)
    print(f'line: {read_} cells as tshark reads them, and 280 each at 1, 7 and 14 a datagram')


if __name__ == '__main__':
    if len(sys.argv) < 2:
        sys.exit(__doc__)
    main(*sys.argv[1:])
