#!/usr/bin/env python3
"""Prints the tables of crates/tables and crates/guards.

usage: python3 tools/tables.py           writes the files
       python3 tools/tables.py --check   compares them, and fails where one differs

A table of crates/tables has an entry for each number of nine bits, the top bits of a sample.
"""
import os
import sys

ROOT = os.path.join(os.path.dirname(os.path.abspath(__file__)), '..', 'crates')


def protection(ten):
    """The complement of the remainder by x^3 + x + 1 of ten bits (nine of the sample, and V) times x^3."""
    rest = ten << 3
    for place in range(12, 2, -1):
        if rest >> place & 1:
            rest ^= 0b1011 << (place - 3)
    return 7 - rest


def marks(bits):
    """The marks of all five low bits of a subframe (V, sequencing bit, protection) for a sample with these protection bits at V = 0."""
    return sum(1 << low for low in range(32) if low % 8 != bits ^ low // 16 * 3)


def marks_without_v(bits):
    """The same where there is no V: the five low bits begin with the sample's lowest, which isn't looked at."""
    return sum(1 << low for low in range(32) if low % 8 != WITHOUT_V[bits])


# The protection bits of nine sample bits without V, by those with V = 0: the one fixes the other.
WITHOUT_V = {protection(nine * 2): protection(nine) for nine in range(512)}

HEAD = '''#![tactic(auto)]
// Three tables by the nine top bits of a sample: the protection bits, which the sender writes, and the marks with V and
// without it, which the receiver gives and a sheet counts. tools/tables.py prints this file: change that, and not this.
ghost use Rattle.std.specs.Prelude.{◌≡◌, ◌%◌, ◌<◌};
ghost use Rattle.guards.specs.Guards.{v_in, protected_bits, ten_guard};
ghost use Rattle.tables.specs.Marks.{MarksOf, MarksWithoutV};
'''

FUNCTIONS = '''
// The protection bits of nine sample bits, V being 0.
#[inline(always)]
pub fn protection(nine: u64) -> u64
    ensures { result ≡ ten_guard (protected_bits (nine % 512) (v_in 0)) }
{
    PROTECTION[(nine % 512) as usize] as u64
}

// The marks of all subframes with these nine sample bits: bit n of the answer is the mark where the five low bits are n (V, the
// sequencing bit, three protection bits).
#[inline(always)]
pub fn marks(nine: u64) -> u64
    ensures { MarksOf (nine % 512) result × (result < 4294967296) }
{
    MARKS[(nine % 512) as usize] as u64
}

// The same where there is no V: the five low bits are the sample's lowest, the sequencing bit and three protection bits.
#[inline(always)]
pub fn marks_without_v(nine: u64) -> u64
    ensures { MarksWithoutV (nine % 512) result × (result < 4294967296) }
{
    MARKS_WITHOUT_V[(nine % 512) as usize] as u64
}
'''


def table(name, kind, form, a_line, value):
    entries = [form % value(protection(nine * 2)) for nine in range(512)]
    rows = [', '.join(entries[first:first + a_line]) for first in range(0, 512, a_line)]
    return '\nstatic %s: [%s; 512] = [\n' % (name, kind) + ''.join('    %s,\n' % row for row in rows) + '];\n'


def source():
    return (HEAD + table('PROTECTION', 'u8', '%d', 32, lambda bits: bits) + table('MARKS', 'u32', '0x%08X', 8, marks)
            + table('MARKS_WITHOUT_V', 'u32', '0x%08X', 8, marks_without_v) + FUNCTIONS)


def sevens(old):
    """The table in crates/guards/src/lib.rt: the protection bits of all numbers of seven bits."""
    start = 'static SEVENS: [u8; 128] = [\n'
    before, rest = old.split(start, 1)
    after = rest.split('];\n', 1)[1]
    rows = [range(first, first + 32) for first in range(0, 128, 32)]
    return before + start + ''.join('    %s,\n' % ', '.join('%d' % protection(ten) for ten in row) for row in rows) + '];\n' + after


def read(path):
    with open(os.path.join(ROOT, path), encoding='utf-8') as file:
        return file.read()


def files():
    yield 'tables/src/lib.rt', source()
    yield 'guards/src/lib.rt', sevens(read('guards/src/lib.rt'))


def main():
    check = sys.argv[1:] == ['--check']
    if sys.argv[1:] and not check:
        sys.exit(__doc__)
    wrong = 0
    for path, text in files():
        full = os.path.join(ROOT, path)
        if os.path.exists(full) and read(path) == text:
            continue
        wrong += 1
        if check:
            print('tables: crates/%s is not what tools/tables.py prints' % path)
        else:
            os.makedirs(os.path.dirname(full), exist_ok=True)
            with open(full, 'w', encoding='utf-8') as file:
                file.write(text)
            print('tables: wrote crates/%s' % path)
    if check and wrong:
        sys.exit(1)


main()
