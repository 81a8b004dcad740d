#!/usr/bin/env python3
"""The desk tool's sound: sampling frequencies, bits, lengths, labels by channel, and all fourteen formats.

usage: desk_sound.py PROGRAM SMALL MAKER [TRIAL..]

SMALL is the same tool with files of at most 60,000 octets of AIFF and 10,000 samples a channel of FLAC, MAKER the program
of tests/desk_log.c. Every trial is run, and each that fails is named.
"""
import hashlib
import os
import pathlib
import random
import select
import struct
import subprocess
import sys
import tempfile

from desk_made import (
    FORMATS, HZ_32000, HZ_44100, HZ_48000, RECORD, block, by_sox, carried, noise, rate_of, read_wave, wave, without)

# Of the logs of `without_status`, as they were before channel status was sent by default.
SUM_WITHOUT_STATUS = '9e6be7942bfbfb00748fa0c990af2c0ef699024e30994c1edb2bd2b0536cf387'


def ran(*words, tool=None, given=None):
    done = subprocess.run([tool or PROGRAM, *map(str, words)], input=given, capture_output=True, check=False)
    return done.returncode, done.stdout.decode(), done.stderr.decode(errors='replace')


def ends(status, words, *call, tool=None, given=None):
    """A call ends with this status and says these words, which may be several; what it says is returned."""
    got, out, said = ran(*call, tool=tool, given=given)
    text = out + said
    assert got == status, f'{" ".join(map(str, call))} ended with {got} and not {status}:\n{text}'
    for word in [words] if isinstance(words, str) else words:
        assert word in text, f'{" ".join(map(str, call))}: no word of "{word}" in\n{text}'
    return text


def empty():
    """Nothing is left in the folder `none`."""
    assert not os.listdir('none'), f'left behind: {os.listdir("none")}'


def log_of(name, format_, channels, order, samples, ancillary=None):
    """A log of two's complement samples, time after time."""
    bits = FORMATS[format_][0]
    entries = b''.join(
        struct.pack('<QB', sample % (1 << bits), ancillary[at] if ancillary else 0) for at, sample in enumerate(samples))
    made = subprocess.run([MAKER, f'{format_:02X}', str(channels), str(order)], input=entries, capture_output=True, check=True)
    pathlib.Path(name).write_bytes(made.stdout)
    return name


def status_log(name, times, blocks):
    """A log of silence with channel status."""
    return log_of(name, 0x56, len(blocks), 0, [0] * (times * len(blocks)), carried(times, blocks))


def longest_files():
    log_of('fits.log', 0x56, 2, 0, [1] * 2 * 9996)
    log_of('long.log', 0x56, 2, 0, [1] * 2 * 10002)
    log_of('gaps.log', 0x56, 2, 0, [1] * 2 * 10002)
    without('gaps.log', 5, 100)
    holds = 'holds at most 10000 samples a channel here'
    for kind in ('aiff', 'aif', 'flac'):
        assert 'holds' not in ends(0, '', 'receive', 'fits.log', f'fits.{kind}', tool=SMALL)
        said = ends(3, [f'{holds}, and the records of long.log alone have 10002: .wav or .w64 holds them',
                        f'{holds}, and more came: .wav or .w64 holds them'],
                    'receive', 'long.log', f'none/x.{kind}', '-l', 'none/l', '-m', 'none/m', tool=SMALL)
        assert 'missing' not in said  # no summary
        assert ' alone ' not in ends(3, holds, 'receive', 'gaps.log', f'none/x.{kind}', tool=SMALL)
        with open('long.log', 'rb') as log:
            assert ' alone ' not in ends(3, holds, 'receive', '-', f'none/x.{kind}', tool=SMALL, given=log.read())
        empty()
        assert len(by_sox(f'fits.{kind}')) == 2 * 9996
        ends(0, '10000 samples a channel', 'receive', 'long.log', f'whole.{kind}', '--length', 10000, tool=SMALL)
        assert len(by_sox(f'whole.{kind}')) == 2 * 10000
    for kind in ('wav', 'rf64', 'w64'):
        assert 'holds' not in ends(0, '10002 samples', 'receive', 'long.log', f'long.{kind}', tool=SMALL)


def longest_aiff():
    """The limit itself: a log of which none is on the disk, and whose records alone pass 4 GiB of AIFF."""
    with open('vast.log', 'wb') as log:
        log.write(bytes([0x56, 2, 0]))
        log.truncate(3 + RECORD * 120000000)
    with subprocess.Popen([PROGRAM, 'receive', '-q', 'vast.log', 'none/x.aiff'], stderr=subprocess.PIPE) as call:
        said = call.stderr.readline().decode() if select.select([call.stderr], [], [], 5)[0] else ''
        call.terminate()
    os.unlink('vast.log')
    assert 'AIFF holds at most 715816960 samples a channel here, and the records of vast.log alone have 720000000' in said
    empty()


def frequency_there_and_back():
    for rate in (32000, 44100, 48000):
        wave('in.wav', noise(2 * 12000, 16), 2, 16, rate)
        for format_ in ('43', '45', '47', '52', '54', '56', '5A'):
            ends(0, 'with channel status', 'send', 'in.wav', 'in.log', '--format', format_, '--force', '--cut')
            kind = 'wav' if format_ in ('47', '5A') else 'flac'
            ends(0, [f'at {rate} Hz, by channel status', f'channel status says {rate} Hz'],
                 'receive', 'in.log', f'out.{kind}', '--force', '--strict')
            assert rate_of(f'out.{kind}') == rate
    with open('in.log', 'rb') as log:
        ends(0, 'by channel status', 'receive', '-', 'piped.wav', given=log.read())
    assert pathlib.Path('piped.wav').read_bytes() == pathlib.Path('out.wav').read_bytes()


def frequency_decided():
    """The first block that ends, of any channel, and that counts; others contradict it."""
    def tried(rate, contradicted, blocks, *more, times=6000):
        status_log('s.log', times, blocks)
        said = ends(1 if contradicted else 0, f'at {rate} Hz', 'receive', 's.log', 'out.wav', '--force', '--strict', *more)
        assert rate_of('out.wav') == rate
        assert ('is used' in said) == contradicted, said
        return said
    fine = block(HZ_44100)
    tried(44100, False, [[], [(0, fine)]])
    said = tried(32000, True, [[(10, fine), (202, fine)], [(5, block(HZ_32000))]])
    assert 'channel status says 44100 Hz in 2 blocks, the first of them in channel 1: 32000 Hz is used' in said
    said = tried(44100, True, [[(5, fine)], [(5, block(HZ_48000))]])
    assert 'says 48000 Hz in 1 block, the first of them in channel 2: 44100 Hz is used' in said
    for other in (block(HZ_48000, flags=0x10), block(HZ_48000, fits=False), block(0), [0] * 191 + [1], [0] * 192,
                  [0, 0, 0, 0, 0, 0, 0, 1] + [0] * 184):
        tried(44100, False, [[(0, other), (192, fine)], [(0, other)]])
        said = tried(48000, False, [[(0, other)], [(0, other)]])
        assert 'at 48000 Hz, assumed (--rate, if it was another)' in said
    tried(32000, False, [[(0, block(HZ_32000, flags=0xEF))], []])  # flags of other octets
    tried(44100, False, [[(4800 - 192, fine)], []])
    said = tried(48000, False, [[(4800 - 191, fine)], []])
    assert 'assumed' in said and 'channel status says' not in said
    tried(32000, False, [[(0, block(HZ_32000)), (4800 - 191, fine)], []])
    tried(48000, False, [[], []], times=6)
    said = tried(48000, True, [[(0, fine)], []], '--rate', 48000)
    assert 'channel status says 44100 Hz in 1 block, the first of them in channel 1: --rate 48000 Hz is used' in said
    assert 'assumed' not in tried(44100, False, [[(0, fine)], []], '--rate', 44100)
    assert 'assumed' not in tried(96000, False, [[], []], '--rate', 96000)
    tried(96000, True, [[(0, fine)], []], '--rate', 96000)


def frequency_after_a_gap():
    """Sample times that are missing count, and break a block."""
    status_log('s.log', 12000, [[(0, block(HZ_32000)), (4800, block(HZ_44100))]])
    without('s.log', 3)
    said = ends(0, 'at 48000 Hz, assumed', 'receive', 's.log', 'out.wav', '--force', '--labels', 'l.txt')
    assert 'channel status' not in said
    assert pathlib.Path('l.txt').read_text(encoding='ascii') == '0.000750\t0.001000\tmissing: samples 36 to 47\n'
    status_log('s.log', 12000, [[(4800 - 192, block(HZ_44100))]])
    without('s.log', 3)
    ends(0, 'at 44100 Hz, by', 'receive', 's.log', 'out.wav', '--force', '--labels', 'l.txt')
    assert pathlib.Path('l.txt').read_text(encoding='ascii') == '0.000816\t0.001088\tmissing: samples 36 to 47\n'
    ends(2, 'at 44100 Hz, by', 'receive', '-', 'out.wav', '--force', given=pathlib.Path('s.log').read_bytes()[:-1])


def frequency_not_carried():
    wave('in.wav', noise(2 * 1200, 24), 2, 24, 96000)
    words = '96000 Hz can\'t be carried in channel status: receive --rate 96000'
    ends(0, words, 'send', 'in.wav', 'in.log', '--force')
    ends(0, words, 'send', '-q', 'in.wav', 'in.log', '--force')
    ends(0, ['at 48000 Hz, assumed', 'channel status says no frequency, 24 bits'], 'receive', 'in.log', 'out.wav', '--force')
    ends(0, '', 'receive', '-q', 'in.log', 'out.wav', '--force', '--rate', 96000, '--strict')
    assert rate_of('out.wav') == 96000
    wave('in.wav', noise(2 * 1200, 24), 2, 24, 44100)
    for more in (['--no-status'], ['--format', '06'], ['--format', '15', '--cut']):
        ends(0, ['without channel status', "doesn't carry the sampling frequency: receive --rate 44100"],
             'send', 'in.wav', 'in.log', '--force', *more)
        ends(0, 'at 48000 Hz, assumed', 'receive', 'in.log', 'out.wav', '--force')


def word_lengths():
    """Octet 2 as it goes out, in a format without overhead, whose last four bits in 32 are the ancillary ones."""
    for bits, format_, want in ((8, '47', 0), (16, '47', 0x08), (24, '47', 0x2C), (32, '47', 4), (32, '45', 0x28)):
        octets = 4 if format_ == '47' else 3
        wave('in.wav', noise(600, 16) if bits > 8 else [1] * 600, 1, bits if bits > 8 else 16, 48000)
        if bits == 8:  # whose samples are unsigned
            subprocess.run(['sox', '-D', 'in.wav', '-b', '8', 'eight.wav'], check=True)
            os.replace('eight.wav', 'in.wav')
        ends(0, '', 'send', 'in.wav', 'in.log', '--format', format_, '--force', '--cut')
        data = pathlib.Path('in.log').read_bytes()
        slots = b''.join(data[at + 1:at + RECORD] for at in range(3, len(data), RECORD))[octets - 1::octets]
        assert slots[0] & 8 and not any(slot & 8 for slot in slots[1:192])
        carried = [slot >> 2 & 1 for slot in slots[:192]]
        assert sum(bit << at for at, bit in enumerate(carried[16:24])) == want, (bits, carried[16:24])
        assert carried == block(HZ_48000, length=want)


def labels_by_their_own_frequency():
    parts = [(HZ_44100, 44100), (HZ_48000, 48000), (0, 0)]
    logs = [pathlib.Path(status_log('s.log', 1920, [[(at, block(code)) for at in range(0, 1920, 192)]])).read_bytes()
            for code, _ in parts]
    pathlib.Path('s.log').write_bytes(logs[0] + b''.join(log[3:] for log in logs[1:]))

    def lines(*rates):
        return ''.join(f'channel 1: {at * 1920 / rate:.6f} to {(at + 1) * 1920 / rate:.6f} s, 10 blocks: fits, professional, '
                       f'{"" if told == 0 else f"{told} Hz, "}24 bits, origin "", destination ""\n'
                       for at, (rate, (_, told)) in enumerate(zip(rates, parts)))
    status, out, said = ran('labels', 's.log')
    assert (status, out) == (0, lines(44100, 48000, 44100)), out
    assert 'channel status says 48000 Hz in 10 blocks, the first of them in channel 1: 44100 Hz is used' in said
    assert ran('labels', 's.log', '--rate', 96000)[1] == lines(96000, 96000, 96000)
    status, out, said = ran('labels', status_log('s.log', 1920, [[(192, block(0)), (384, block(0, flags=0x10))]]))
    assert 'seconds are counted at 48000 Hz, which is assumed (--rate)' in said
    assert '24 bits (flagged as unreliable), origin' in out and out.count('1 block: fits') == 2
    unfit = block(HZ_32000, fits=False)
    out = ends(0, f'channel 1: {192 / 44100:.6f} to {384 / 44100:.6f} s, 1 block: doesn\'t fit, professional, 32000 Hz', 'labels',
               status_log('s.log', 1920, [[(0, block(HZ_44100)), (192, unfit)]]))
    assert ran('labels', status_log('s.log', 1920, [[(192, unfit)]]))[1].startswith('channel 1: 0.006000 to 0.012000 s, ')
    status_log('s.log', 9600, [[(at, block(HZ_44100 if at > 3000 else 0)) for at in range(0, 9600, 192)]])
    with open('s.log', 'rb') as log:
        out = ends(0, 'channel 1: 0.000000 to', 'labels', '-', given=log.read())
    assert f'to {16 * 192 / 44100:.6f} s, 16 blocks' in out and 'assumed' not in out, out


def pictures():
    """The time line is drawn by the same frequency, and one that contradicts it is named."""
    def below_the_head(name):
        dots = subprocess.run(['pngtopnm', name], capture_output=True, check=True).stdout.split(b'\n', 3)[3]
        return dots[80 * 1600 * 3:]
    status_log('s.log', 60000, [[(0, block(HZ_32000))]])
    ends(0, '', 'picture', 's.log', 'a.png', '--force')
    ends(0, '', 'picture', 's.log', 'b.png', '--force', '--rate', 32000)
    ends(0, '--rate 48000 Hz is used', 'picture', 's.log', 'c.png', '--force', '--rate', 48000)
    assert below_the_head('a.png') == below_the_head('b.png') != below_the_head('c.png')


def bits_of_files():
    sixteen = [sample << 8 for sample in noise(2400, 16)]
    log_of('in.log', 0x56, 2, 0, sixteen)
    ends(0, '', 'receive', 'in.log', 'out.wav', '--force')
    assert read_wave('out.wav') == (24, 48000, 2, sixteen)
    ends(0, '', 'receive', 'in.log', 'out.wav', '--force', '--bits', 16)
    assert read_wave('out.wav') == (16, 48000, 2, [sample >> 8 for sample in sixteen])
    ends(0, '', 'receive', 'in.log', 'out.wav', '--force', '--bits', 32)
    assert read_wave('out.wav') == (32, 48000, 2, [sample << 8 for sample in sixteen])
    sixteen[1801] += 3
    sixteen[2005] += 128
    log_of('in.log', 0x56, 2, 0, sixteen)
    ends(2, "in.log: sample 900 of channel 2 has bits that aren't 0 below its top 16: --cut 16 drops them",
         'receive', 'in.log', 'none/x.wav', '--bits', 16, '-l', 'none/l', '-m', 'none/m')
    empty()
    for more in ([], ['--bits', 16]):
        ends(0, "2 samples lost low bits that weren't 0 (--cut 16)", 'receive', 'in.log', 'out.wav', '-F', '--cut', 16, *more)
        assert read_wave('out.wav') == (16, 48000, 2, [sample >> 8 for sample in sixteen])
    ends(0, '2 samples lost', 'receive', 'in.log', 'out.wav', '--force', '--cut', 16, '--bits', 24)
    assert read_wave('out.wav') == (24, 48000, 2, [sample >> 8 << 8 for sample in sixteen])
    assert 'lost' not in ends(0, '', 'receive', 'in.log', 'out.wav', '--force', '--cut', 32)
    assert read_wave('out.wav') == (24, 48000, 2, sixteen)
    ends(64, '--bits 16 is less than --cut 24', 'receive', 'in.log', 'none/x.wav', '--cut', 24, '--bits', 16)
    ends(64, '--bits: 16, 24 or 32', 'receive', 'in.log', 'none/x.wav', '--bits', 20)
    ends(64, '--cut: 16, 24 or 32', 'receive', 'in.log', 'none/x.wav', '--cut', 8)
    empty()


def without_status():
    """Octet for octet the logs that were made before channel status was sent by default."""
    digest = hashlib.sha256()
    chance = random.Random(7)
    for number, format_ in enumerate(FORMATS):
        for channels in (1, 2, 5):
            wave('in.wav', [chance.randrange(-1 << 23, 1 << 23) for _ in range(channels * 500)], channels, 24, 44100)
            more = WITHOUT + ['-q', '--cut', '--force', '--order', number % 2, '--number', 3 * number % 16]
            if format_ // 16 % 2 == 1 and format_ != 0x5A:
                more += ['--second', number]
            ends(0, '', 'send', 'in.wav', 'in.log', '--format', f'{format_:02X}', *more)
            digest.update(pathlib.Path('in.log').read_bytes())
    assert digest.hexdigest() == SUM_WITHOUT_STATUS, digest.hexdigest()
    ends(64, 'and another option sends', 'send', 'in.wav', 'none/x.log', '--no-status', '--origin', 'STUD')
    ends(2, 'refused 6: ', 'send', 'in.wav', 'none/x.log', '--format', '06', '--origin', 'STUD')
    empty()


def labels_by_channel():
    log = bytearray(pathlib.Path(log_of('in.log', 0x56, 2, 0, [0] * 2 * 120)).read_bytes())

    def spoil(time, channel):
        log[3 + RECORD * (time // 6) + 1 + 4 * (2 * (time % 6) + channel)] ^= 0x80
    for time, channel in ((30, 0), (31, 1), (40, 0), (41, 0), (41, 1), (42, 1), (43, 0), (43, 1), (47, 0), (48, 0), (60, 1)):
        spoil(time, channel)
    pathlib.Path('in.log').write_bytes(log)
    without('in.log', 9)
    ends(1, '12 samples missing, 11 damaged', 'receive', 'in.log', 'out.wav', '-l', 'l.txt', '-F', '--strict')
    want = [(30, 30, 'in channel 1'), (31, 31, 'in channel 2'), (40, 40, 'in channel 1'), (41, 41, 'in channels 1 and 2'),
            (42, 42, 'in channel 2'), (43, 43, 'in channels 1 and 2'), (47, 48, 'in channel 1'), (54, 59, None),
            (60, 60, 'in channel 2')]
    lines = [f'{first / 48000:.6f}\t{(last + 1) / 48000:.6f}\t{f"damaged {where}" if where else "missing"}: '
             + (f'sample {first}' if first == last else f'samples {first} to {last}') for first, last, where in want]
    assert pathlib.Path('l.txt').read_text(encoding='ascii').splitlines() == lines


def all_formats():
    """Samples of all the range, log to file to samples, in every kind of file that can hold them."""
    for format_, (bits, slots, wide) in FORMATS.items():
        for channels, order in ((1, 0), (2, 1), (slots, 0)):
            samples = noise(slots // channels * channels * 40, bits)
            log_of('in.log', format_, channels, order, samples)
            ends(0, '', 'receive', 'in.log', 'out.wav', '--force', '--strict')
            if wide == 64:
                assert read_wave('out.wav') == (64, 48000, channels, [sample / 2 ** 39 for sample in samples])
            else:
                assert read_wave('out.wav') == (wide, 48000, channels, [sample << wide - bits for sample in samples])
            for kind in ('rf64', 'w64', 'aiff', 'flac'):
                if kind == 'flac' and (wide > 24 or channels > 8):
                    continue
                ends(0, '', 'receive', 'in.log', f'out.{kind}', '--force', '--strict')
                if kind != 'rf64' and wide != 64:  # sox has them exactly
                    assert by_sox(f'out.{kind}') == [sample << 32 - bits for sample in samples], (hex(format_), kind)
                else:
                    subprocess.run(['sndfile-cmp', 'out.wav', f'out.{kind}'], check=True)


def forty_bits():
    samples = noise(2 * 400, 40)
    log_of('in.log', 0x5A, 2, 0, samples)
    ends(64, ['FLAC', '40 bits', '--cut 24'], 'receive', 'in.log', 'none/x.flac')
    for cut in (16, 24, 32):
        lost = sum(sample % (1 << 40 - cut) != 0 for sample in samples)
        ends(0, f"{lost} samples lost low bits that weren't 0 (--cut {cut})", 'receive', 'in.log', 'out.wav', '-F', '--cut', cut)
        assert read_wave('out.wav') == (cut, 48000, 2, [sample >> 40 - cut for sample in samples])
    ends(0, 'samples lost', 'receive', 'in.log', 'out.flac', '-F', '--cut', 24)
    assert by_sox('out.flac') == [sample >> 16 << 8 for sample in samples]
    ends(2, '--cut 32 drops them', 'receive', 'in.log', 'none/x.wav', '--bits', 32)
    empty()
    log_of('in.log', 0x5A, 2, 0, [sample >> 8 << 8 for sample in samples])
    ends(0, '', 'receive', 'in.log', 'out.aiff', '-F', '--bits', 32)
    assert by_sox('out.aiff') == [sample >> 8 for sample in samples]
    wave('in.wav', noise(2 * 400, 32), 2, 32, 44100)
    ends(0, '', 'send', 'in.wav', 'in.log', '-F', '-f', '5A')
    ends(0, '', 'receive', 'in.log', 'out.wav', '-F', '--bits', 32, '--strict')
    assert read_wave('out.wav') == read_wave('in.wav')


def lengths():
    for frames, at in ((1000, 'the beginning'), (9001, 'the rest')):
        samples = noise(2 * frames, 24)
        wave('in.wav', samples, 2, 24, 48000)
        ends(0, '', 'send', 'in.wav', 'in.log', '-F')
        filled = samples + [0] * (-frames % 6 * 2)
        call = ['receive', 'in.log', 'out.wav', '-F', '-m', 'out.marks', '--strict', '--length']
        ends(0, f'{frames} samples a channel', *call, frames)
        assert read_wave('out.wav')[3] == samples, at
        assert pathlib.Path('out.marks').read_bytes() == bytes(2 * frames)
        with open('in.log', 'rb') as log:
            ends(0, '', 'receive', '-', 'out.wav', '-F', '--length', frames, given=log.read())
        assert read_wave('out.wav')[3] == samples, at
        past = len(filled) // 2
        ends(0, f'{past} samples a channel', *call, past)
        for other in (0, 1, 6, 300, past - 6, past - 7, past + 1, past + 6, 1 << 40):
            said = f"in.log: --length {other} isn't in the last cell ({past - 5} to {past}): nothing is cut"
            ends(1, [said, f'{past} samples a channel'], *call, other)
            assert read_wave('out.wav')[3] == filled, (at, other)
            assert len(pathlib.Path('out.marks').read_bytes()) == len(filled)
        ends(0, 'nothing is cut', 'receive', '-q', 'in.log', 'out.wav', '-F', '--length', 1)
        for inside in range(past - 5, past):
            ends(0, f'{inside} samples a channel', *call, inside)
            assert read_wave('out.wav')[3] == filled[:2 * inside]


def length_and_flaws():
    """Labels end where the sound does, and a gap before the last cell stays."""
    log = bytearray(pathlib.Path(log_of('in.log', 0x56, 2, 0, [0] * 2 * 60)).read_bytes())
    for time in (57, 58):
        log[3 + RECORD * 9 + 1 + 8 * (time % 6)] ^= 0x80
    pathlib.Path('in.log').write_bytes(log)
    without('in.log', 7, 8)
    ends(0, ['24 samples missing, 1 damaged', '58 samples a channel'], 'receive', 'in.log', 'out.wav', '-F', '-l', 'l.txt', '-m',
         'm', '--length', 58)
    assert pathlib.Path('l.txt').read_text(encoding='ascii').split('\n')[1:] == [
        f'{57 / 48000:.6f}\t{58 / 48000:.6f}\tdamaged in channel 1: sample 57', '']
    assert pathlib.Path('m').read_bytes() == bytes(84) + b'\2' * 24 + bytes(6) + b'\1\0'
    log_of('in.log', 0x56, 2, 0, [])
    ends(1, 'and there is no sound cell', 'receive', 'in.log', 'out.wav', '-F', '--length', 1, '--strict')
    ends(0, '0 samples a channel', 'receive', 'in.log', 'out.wav', '-F', '--length', 0, '--strict')


TRIALS = [longest_files, longest_aiff, frequency_there_and_back, frequency_decided, frequency_after_a_gap, frequency_not_carried,
          word_lengths, labels_by_their_own_frequency, pictures, bits_of_files, without_status, labels_by_channel, all_formats,
          forty_bits, lengths, length_and_flaws]
if len(sys.argv) < 4:
    sys.exit(__doc__)
TRIALS = [trial for trial in TRIALS if not sys.argv[4:] or trial.__name__ in sys.argv[4:]]
PROGRAM, SMALL, MAKER = (str(pathlib.Path(word).resolve()) for word in sys.argv[1:4])
WITHOUT = ['--no-status'] if '--no-status' in ran('send', '--help')[1] else []
failed = 0
for trial in TRIALS:
    with tempfile.TemporaryDirectory() as place:
        os.chdir(place)
        os.mkdir('none')
        try:
            trial()
        except (AssertionError, subprocess.CalledProcessError, OSError) as fault:
            failed += 1
            print(f'desk: {trial.__name__}: {str(fault)[:2000]}', file=sys.stderr)
        os.chdir('/')
if failed:
    sys.exit(f'desk: {failed} of {len(TRIALS)} trials of sound failed')
print(f'desk: {len(TRIALS)} trials of sound')
