#!/usr/bin/env python3
"""Builds what the comparison needs to be run over an archive for either machine, on this one: tests/gate/12-machines.sh.

  build.py near FOLDER                  writes FOLDER/librimesatchel.a and libmanagement.a, functions that have their calls made
                                        elsewhere (near.c); the comparison links them
  build.py far MACHINE FOLDER PROGRAM   writes the program that makes the calls (far.c), with the two archives of FOLDER in it

What the functions take is read from the crates, as tools/quick_face.py reads it.
"""
import pathlib
import re
import subprocess
import sys
import tempfile

HERE = pathlib.Path(__file__).resolve().parent
sys.path.insert(0, str(HERE.parent.parent / 'tools'))
import native  # noqa: E402
import quick_face  # noqa: E402

CRATES = ('rimesatchel', 'management')
TYPES = {'u8': ('uint8_t', 8), 'bool': ('bool', 8), 'u32': ('uint32_t', 32), 'u64': ('uint64_t', 64), 'usize': ('size_t', 64)}


def faces(crate):
    return [face[1:] for face in quick_face.functions(crate)]


def near(number, name, types, answer):
    """One function of the archive for the comparison."""
    takes, words, lent = [], [], []
    for place, kind in enumerate(types):
        if kind in TYPES:
            spelled, bits = TYPES[kind]
            takes.append(f'{spelled} a{place}')
            words.append(f'{{dirty(a{place}, {bits}), 0, 0}}' if bits < 64 else f'{{a{place}, 0, 0}}')
            lent.append('NULL')
            continue
        shape = re.fullmatch(r'&(mut )?(?:\[(\w+)(?:; (\d+))?\]|(\w+))', kind)
        written, size = int(bool(shape[1])), TYPES[shape[2] or shape[4]][1] // 8
        run = shape[2] and not shape[3]
        takes.append(f'void *a{place}' + (f', size_t n{place}' if run else ''))
        words.append(f'{{{size} * ' + (f'n{place}' if run else shape[3] or '1') + f', 1, {written}}}')
        lent.append(f'a{place}')
        if run:
            words.append(f'{{n{place}, 0, 0}}')
            lent.append('NULL')
    assert len(words) <= 16, f'{name} takes more words than far.c passes on'
    given = TYPES[answer][0]
    return (f'{given} {name}({", ".join(takes)})\n{{\n    struct word words[] = {{{", ".join(words)}}};\n'
            f'    void *lent[] = {{{", ".join(lent)}}};\n    return ({given})call({number}, words, lent, {len(words)});\n}}\n')


def build_near(folder):
    folder.mkdir(parents=True, exist_ok=True)
    number = 0
    for crate in CRATES:
        text = (HERE / 'near.c').read_text(encoding='utf-8')
        for face in faces(crate):
            text += '\n' + near(number, *face)
            number += 1
        source, code, made = (folder / f'{crate}{end}' for end in ('.c', '.o', '.a.new'))
        source.write_text(text, encoding='utf-8')
        subprocess.run(['gcc', '-std=gnu11', '-O2', '-fPIC', '-Wall', '-Wextra', '-c', source, '-o', code], check=True)
        subprocess.run(['ar', 'rcsD', made, code], check=True)
        archive = folder / f'lib{crate}.a'
        if not archive.exists() or archive.read_bytes() != made.read_bytes():  # else the comparison would be built anew
            made.rename(archive)


def build_far(machine, folder, program):
    names = [face[0] for crate in CRATES for face in faces(crate)]
    with tempfile.TemporaryDirectory() as room:
        table, far, listed = (pathlib.Path(room) / name for name in ('table.c', 'far.o', 'table.o'))
        table.write_text('\n'.join(f'void {name}(void);' for name in names)
                         + f'\nvoid (*const functions[])(void) = {{{", ".join(names)}}};\n', encoding='utf-8')
        clang = [native.tool('clang'), f'--target={machine}-unknown-linux-gnu', '--no-default-config', '-std=c11', '-O2',
                 '-ffreestanding', '-fno-builtin', '-fno-stack-protector', '-Wall', '-Wextra', '-Werror', '-c']
        subprocess.run(clang + [HERE / 'far.c', '-o', far], check=True)
        subprocess.run(clang + [table, '-o', listed], check=True)
        program.parent.mkdir(parents=True, exist_ok=True)
        subprocess.run([native.tool('ld.lld'), '-static', far, listed, *(folder / f'lib{crate}.a' for crate in CRATES), '-o', program],
                       check=True)


if __name__ == '__main__':
    if sys.argv[1:2] == ['near'] and len(sys.argv) == 3:
        build_near(pathlib.Path(sys.argv[2]))
    elif sys.argv[1:2] == ['far'] and len(sys.argv) == 5:
        build_far(sys.argv[2], pathlib.Path(sys.argv[3]), pathlib.Path(sys.argv[4]))
    else:
        sys.exit(__doc__)
