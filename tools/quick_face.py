#!/usr/bin/env python3
"""Builds the library for C without any proof, in seconds: for a first look. `make lib` proves it.

usage: quick_face.py [LIBRARY]      writes target/quick/lib/libLIBRARY.a; without a name librimesatchel.a

The toolchain compiles only a program without proof (tools/quick.py), and a program exports nothing. So the face's functions
become a program that calls each once, and functions for C are added to its LLVM module: target/quick/face.ll.
"""
import pathlib
import re
import shutil
import sys
import tempfile

import native
import quick

HERE = pathlib.Path(__file__).resolve().parent.parent
LIB = quick.OUT / 'lib'
SCALARS = {'u8': 'i8', 'u32': 'i32', 'u64': 'i64', 'usize': 'i64', 'bool': 'i1'}


def sources(library):
    """The modules of the library's crate for C. Its lib.rt only names them."""
    return [path for path in sorted((HERE / 'crates' / f'{library}_c' / 'src').glob('*.rt')) if path.name != 'lib.rt']


def functions(library):
    """Of each function for C: its module, its name, its parameters' types, its answer's type."""
    for path in sources(library):
        text = path.read_text(encoding='utf-8')
        for name, parameters, answer in re.findall(r'pub extern "C" fn (\w+)\(([^)]*)\) -> (\w+)', text):
            yield path.stem, name, [part.split(':', 1)[1].strip() for part in parameters.split(',') if ':' in part], answer


def program(library, faces):
    """A program that calls each function once."""
    lines = [f'mod {path.stem};' for path in sources(library)] + ['', 'fn main() {']
    for number, (module, name, types, _) in enumerate(faces):
        words = []
        for place, kind in enumerate(types):
            value = f'v{number}_{place}'
            if kind in SCALARS:
                words.append('false' if kind == 'bool' else '0')
                continue
            shape = re.fullmatch(r'&(mut )?(?:\[(\w+)(?:; (\d+))?\]|(\w+))', kind)
            what = f'[0{shape[2]}; {shape[3] or 16}]' if shape[2] else f'0{shape[4]}'
            lines.append(f'    let {shape[1] or ""}{value} = {what};')
            words.append(f'&{shape[1] or ""}{value}')
        lines.append(f'    {module}::{name}({", ".join(words)});')
    return '\n'.join(lines + ['}', ''])


def for_c(module, name, types, answer):
    """A function for C in LLVM's words. A lent run is its address and its length."""
    takes = []
    for place, kind in enumerate(types):
        run = re.fullmatch(r'&(mut )?\[\w+\]', kind)
        takes.append(f'{SCALARS[kind]} %a{place}' if kind in SCALARS else f'ptr %a{place}' + (f', i64 %n{place}' if run else ''))
    kind, given = SCALARS[answer], ', '.join(takes)
    return (f'define {kind} @{name}({given}) {{\n'
            f'  %r = call {kind} @"face::{module}::{name}"({given})\n  ret {kind} %r\n}}\n')


def crates_of(library):
    """The crates that a library is made of, each after those that it needs itself."""
    return [*native.below(f'{library}_c'), f'{library}_c']


def main(library):
    if f'{library}_c' not in native.listed() or not list(functions(library)):
        raise SystemExit(f'quick_face: no library is named {library}, or it has no function for C')
    faces = list(functions(library))
    with tempfile.TemporaryDirectory() as place:
        room = pathlib.Path(place)
        (room / 'src').mkdir()
        for path in sources(library):
            shutil.copy(path, room / 'src')
        (room / 'src' / 'main.rt').write_text(program(library, faces), encoding='utf-8')
        module, _, _ = quick.tried('face', room / 'src' / 'main.rt', native.listed()[f'{library}_c'][1], room)
        text = native.words_of(module)
    for name in ('main', '"face::main[^"]*"'):
        text = re.sub(r'(?ms)^define [^\n]*@' + name + r'\(.*?^}\n', '', text)
    LIB.mkdir(parents=True, exist_ok=True)
    (quick.OUT / 'face.ll').write_text(text + ''.join(for_c(*face) for face in faces), encoding='utf-8')
    native.build(quick.OUT / 'face.ll', LIB / f'lib{library}.a')


if __name__ == '__main__':
    native.known_here()
    main(*(sys.argv[1:] or ['rimesatchel']))
