#!/usr/bin/env python3
"""Makes the reading room: one page, with the library in it as WebAssembly. `make page` calls it.

usage: build.py MODULE OUT.html [WORDS]      MODULE: the library as an LLVM module; WORDS: what the page's foot says of it

OUT's folder also gets library.wasm and reader.js, for the tests under Node.
"""
import base64
import hashlib
import json
import os
import pathlib
import re
import subprocess
import sys
import tempfile

HERE = pathlib.Path(__file__).resolve().parent
ROOT = HERE.parent
sys.path.insert(0, str(ROOT / 'tools'))
import native  # noqa: E402

HEADER = (ROOT / 'include' / 'rimesatchel.h').read_text(encoding='utf-8')
WORKER = ('library.js', 'files.js', 'reader.js', 'door.js')
SCRIPTS = ('page.js', 'picture.js', 'sound.js')
MOST = 200_000  # octets of the page
PROVED = ('Every cell is taken by the library <b>rimesatchel</b>, whose proof a machine has checked. What is around it '
          'isn’t proved.')
# rime_sheet alone has some 160 KiB of stack, and the linker gives 64 where nothing is said.
LINKED = ['--no-entry', '--stack-first', '-z', 'stack-size=1048576', '--export=__heap_base', '--strip-all']


def calls():
    """The names of the calls that the header has."""
    return re.findall(r'^uint\d+_t (rime_\w+)\(', HEADER, re.M)


def library(module, out):
    """The module as WebAssembly. It has no imports: a call that isn't in it fails here."""
    with tempfile.TemporaryDirectory() as folder:
        words, code, wide, linker = (pathlib.Path(folder) / name for name in ('module.ll', 'module.o', 'wide.o', 'wasm-ld'))
        plain = [native.tool('clang'), '--target=wasm32-unknown-unknown', '--no-default-config', '-Wno-override-module']
        clang = [*plain, '-x', 'ir']
        subprocess.run(clang + ['-S', '-emit-llvm', '-Xclang', '-disable-llvm-passes', module, '-o', words], check=True)
        text = re.sub(r' "target-cpu"="[^"]*"', '', words.read_text(encoding='utf-8'))
        # an address has 32 bits here, and ptrtoaddr gives no wider number
        words.write_text(text.replace(' = ptrtoaddr ptr ', ' = ptrtoint ptr '), encoding='utf-8')
        subprocess.run(clang + ['-O3', '-mbulk-memory', '-c', words, '-o', code], check=True)
        subprocess.run([*plain, '-O2', '-ffreestanding', '-c', HERE / 'wide.c', '-o', wide], check=True)
        os.symlink(native.tool('ld.lld').resolve(), linker)
        subprocess.run([linker, *LINKED, *(f'--export={name}' for name in calls()), code, wide, '-o', out], check=True)


def constants(wasm):
    """What stands before the Worker's script."""
    numbers = {name: int(value, 0) for name, value in re.findall(r'\bRIME_(\w+) = (\w+)', HEADER)}
    refusals = dict(re.findall(r'case (\d+): return "([^"]*)";', HEADER))
    values = {'WASM': base64.b64encode(wasm.read_bytes()).decode(), 'RIME': numbers, 'REFUSALS': refusals}
    return ''.join(f'const {name} = {json.dumps(value)};\n' for name, value in values.items())


def joined(names):
    return '\n'.join((HERE / name).read_text(encoding='utf-8') for name in names)


def hashed(script):
    return "'sha256-" + base64.b64encode(hashlib.sha256(script.encode()).digest()).decode() + "'"


def main(module, out, words=PROVED):
    out = pathlib.Path(out)
    out.parent.mkdir(parents=True, exist_ok=True)
    wasm = out.parent / 'library.wasm'
    library(module, wasm)
    reader, script, style = constants(wasm) + joined(WORKER), joined(SCRIPTS), joined(['page.css'])
    assert '</script' not in reader + script
    page = (HERE / 'page.html').read_text(encoding='utf-8')
    for mark, text in (('/*STYLE*/', style), ('/*READER*/', reader), ('/*SCRIPT*/', script),
                       ('/*HASH*/', hashed(script)), ('/*STYLE-HASH*/', hashed(style)), ('/*FOOT*/', words)):
        assert page.count(mark) == 1, mark
        page = page.replace(mark, text)
    (out.parent / 'reader.js').write_text(reader, encoding='utf-8')
    out.write_text(page, encoding='utf-8')
    length = len(page.encode())
    if length > MOST:
        sys.exit(f'{out}: {length} octets, and at most {MOST} may be')
    print(f'{out}: {length} octets')


if __name__ == '__main__':
    if len(sys.argv) not in (3, 4):
        sys.exit(__doc__)
    main(*sys.argv[1:])
