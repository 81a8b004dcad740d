#!/usr/bin/env python3
"""Holds the faces of the library against each other: Rattle's functions marked `extern "C"`, the C headers, the Rust crate's
`extern` blocks and the Python module's argument types. In all of them each call has the same arguments, by name where the face
has names, in the same order, of the same width and length, lent to be read or to be written, and returns the same. A function for
C has the clauses of the library's own function of its name, word for word. The version is the header's everywhere, and the header
in the Rust crate is that of include/.

usage: faces.py             compares; the first words of a line say which face differs
       faces.py --planted   plants a fault in each face, one after the other, and sees that each is noticed
"""
import ctypes
import pathlib
import re
import sys
import types

HERE = pathlib.Path(__file__).resolve().parent.parent
HEADERS = ['include/rimesatchel.h', 'include/rime_management.h']
CRATES = ['crates/rimesatchel_c', 'crates/management_c']
LIBRARIES = ['crates/rimesatchel', 'crates/management']
COPY = 'bindings/rust/rimesatchel.h'
RUST = ['bindings/rust/src/face.rs', 'bindings/rust/src/face/pieces.rs', 'bindings/rust/src/management.rs']
PYTHON = 'bindings/python/rimesatchel/__init__.py'
C_KINDS = {'uint8_t': 'u8', 'uint32_t': 'u32', 'uint64_t': 'u64', 'size_t': 'usize', 'bool': 'bool'}
CTYPES = {ctypes.c_uint8: 'u8', ctypes.c_uint32: 'u32', ctypes.c_uint64: 'u64', ctypes.c_bool: 'bool'}


def texts():
    """Every file that is looked at, by its name."""
    names = [*HEADERS, COPY, *RUST, PYTHON, 'CHANGELOG.md', 'bindings/rust/Cargo.toml', 'examples/rust/Cargo.toml']
    for crate in CRATES + LIBRARIES:
        names += [str(path.relative_to(HERE)) for path in sorted((HERE / crate / 'src').glob('**/*.rt'))]
    names += [f'{folder}/Cargo.lock' for folder in ('bindings/rust', 'examples/rust', 'tests/compare')]
    return {name: (HERE / name).read_text(encoding='utf-8') for name in names}


def rattle(files):
    """Each call: its arguments as (name, type), as C has them, and what it returns."""
    calls = {}
    for path, text in files.items():
        if not path.endswith('.rt') or not path.startswith(tuple(f'{crate}/' for crate in CRATES)):
            continue
        for mark, name, parameters, answer in re.findall(r'^(.*)\npub extern "C" fn (\w+)\(([^)]*)\) -> (\w+)', text, re.M):
            arguments = []
            for word, kind in re.findall(r'(\w+): ([^,]+?(?:\[[^]]*\])?)\s*(?:,|$)', parameters):
                lent = re.fullmatch(r'&(mut )?(?:\[(\w+)(; \d+)?\]|(\w+))', kind)
                if not lent:
                    arguments.append((word, kind))
                    continue
                how, width = 'mut' if lent[1] else 'const', lent[2] or lent[4]
                arguments.append((word, f'{how} {width}[{lent[3][2:]}]' if lent[3] else f'{how} {width}*'))
                if lent[2] and not lent[3]:
                    arguments.append((f'{word}_len', 'usize'))
            calls[name] = (arguments, answer) if mark == '#[unsafe(no_mangle)]' else ([('no_mangle', 'missing')], answer)
    return calls


def promised(files, crates):
    """Each call's parameters and clauses, as they stand in front of its body."""
    found = {}
    for path, text in files.items():
        if path.endswith('.rt') and path.startswith(tuple(f'{crate}/' for crate in crates)):
            for name, said in re.findall(r'^pub (?:extern "C" )?fn (rime_\w+)(.*?)^\{$', text, re.M | re.S):
                found[name] = re.sub(r',? \)', ')', re.sub(r'\(\s+', '(', re.sub(r'\s+', ' ', said))).strip()
    return found


def clauses(files):
    """Where a function for C promises something else than the library's function of its name, or one of the two is missing."""
    ours, theirs = promised(files, LIBRARIES), promised(files, CRATES)
    return [f'{name}: for C `{theirs.get(name, "nothing")}`, and in the library `{ours.get(name, "nothing")}`'
            for name in sorted(ours.keys() | theirs.keys()) if ours.get(name) != theirs.get(name)]


def c_header(files):
    calls = {}
    for path in HEADERS:
        text = re.sub(r'/\*.*?\*/', '', files[path], flags=re.S)
        numbers = dict(re.findall(r'\b(RIME_\w+) = (\w+)', text))
        for answer, name, parameters in re.findall(r'^(\w+) (rime_\w+)\(([^)]*)\);', text, re.M):
            arguments = []
            for part in re.split(r',\s*', parameters):
                const, kind, star, word, length = re.fullmatch(r'(const )?(\w+) (\*?)(\w+)(?:\[(\w+)\])?', part.strip()).groups()
                how, width = 'const' if const else 'mut', C_KINDS.get(kind, kind)
                if length:
                    arguments.append((word, f'{how} {width}[{numbers.get(length, length)}]'))
                else:
                    arguments.append((word, f'{how} {width}*' if star else width))
            calls[name] = (arguments, C_KINDS.get(answer, answer))
    return calls


def rust(files):
    calls = {}
    for path in RUST:
        kinds = dict(re.findall(r'pub type (\w+) = (\[.*?\]);', files[path]))
        for block in re.findall(r'extern "C" \{(.*?)\n    \}', files[path], re.S):
            for name, parameters, answer in re.findall(r'pub fn (\w+)\(([^)]*)\)\s*-> (\w+);', block):
                arguments = []
                for word, kind in re.findall(r'(\w+): ([^,]+?(?:\[[^]]*\])?)\s*(?:,|$)', parameters):
                    lent = re.fullmatch(r'\*(mut|const) (.*)', kind)
                    array = lent and re.fullmatch(r'\[(\w+); (\d+)\]', kinds.get(lent[2], lent[2]))
                    if array:
                        kind = f'{lent[1]} {array[1]}[{array[2]}]'
                    elif lent:
                        kind = f'{lent[1]} {lent[2]}*'
                    arguments.append((word, kind))
                calls[name] = (arguments, answer)
    return calls


class Stub:
    """Stands for the shared library, which a comparison of types doesn't need."""

    def __init__(self, *_):
        pass

    def __getattr__(self, _):
        return Stub()

    def __call__(self, *_):
        return b''


def python_module(text):
    module = types.ModuleType('rimesatchel')
    module.__file__ = str(HERE / PYTHON)
    loaded, ctypes.CDLL = ctypes.CDLL, Stub
    sys.modules['rimesatchel'] = module
    try:
        exec(compile(text, PYTHON, 'exec'), module.__dict__)
    finally:
        ctypes.CDLL = loaded
    return module


def python(files):
    """ctypes knows neither names nor what is lent to be read alone, and has one type for u64 and usize."""
    def said(kind):
        if kind in CTYPES:
            return CTYPES[kind]
        inner = kind._type_
        return f'{CTYPES[inner._type_]}[{inner._length_}]' if hasattr(inner, '_length_') else f'{CTYPES[inner]}*'

    module = python_module(files[PYTHON])
    return {name: ([said(kind) for kind in kinds], said(module._ANSWERS.get(name, ctypes.c_uint8)))
            for name, kinds in module._ARGUMENTS.items()}


def bare(call):
    """A call of Rattle as Python knows it."""
    arguments, answer = call
    return [kind.split(' ')[-1].replace('usize', 'u64') for _, kind in arguments], answer


def versions(files):
    """Where the version stands beside the header, and what it is there."""
    header = re.search(r'#define RIME_VERSION "(.*)"', files[HEADERS[0]])
    version = header[1] if header else ''
    found = {'CHANGELOG.md': (re.findall(r'^## (\S+)', files['CHANGELOG.md'], re.M) or [''])[0]}
    for path in ('bindings/rust/Cargo.toml', 'examples/rust/Cargo.toml'):
        found[path] = re.search(r'^version = "(.*)"', files[path], re.M)[1]
    for path in (name for name in files if name.endswith('.lock')):
        found[path] = re.search(r'name = "rimesatchel"\nversion = "(.*)"', files[path])[1]
    wrong = [f'{path}: version {there}, and {HEADERS[0]} has {version}' for path, there in found.items() if there != version]
    if f'\n_ABI = {version.split(".")[0]} ' not in files[PYTHON]:
        wrong.append(f'{PYTHON}: _ABI is not the first number of {version}')
    return wrong


def shown(call):
    """A call as a line can show it."""
    if call is None:
        return 'missing'
    arguments, answer = call
    words = [part if isinstance(part, str) else f'{part[0]}: {part[1]}' for part in arguments]
    return f'({", ".join(words)}) -> {answer}'


def differences(files):
    ours = rattle(files)
    wrong = versions(files) + clauses(files)
    if files[COPY] != files[HEADERS[0]]:
        wrong.append(f'{COPY} is not {HEADERS[0]}')
    faces = [(', '.join(HEADERS), c_header(files), ours), (', '.join(RUST), rust(files), ours),
             (PYTHON, python(files), {name: bare(call) for name, call in ours.items()})]
    for face, theirs, expected in faces:
        for name in sorted(theirs.keys() | expected.keys()):
            if theirs.get(name) != expected.get(name):
                wrong.append(f'{face}: {name} is {shown(theirs.get(name))}, and in Rattle {shown(expected.get(name))}')
    return wrong, len(ours)


# A face, what stands there, and what is planted in its place.
FAULTS = [
    ('crates/rimesatchel_c/src/boxes.rt', 'report: &mut [u8; 4]', 'report: &mut [u8; 5]'),
    ('crates/rimesatchel_c/src/boxes.rt', 'pub extern "C" fn rime_send(', 'pub extern "C" fn rime_sent('),
    ('crates/rimesatchel_c/src/boxes.rt', 'ensures { ReceivedOctets', 'ensures { AnyOctets'),
    ('crates/rimesatchel/src/facts.rt', 'pub fn rime_format(', 'pub fn rime_formats('),
    ('crates/management_c/src/controller.rt', 'message: &[u8]', 'message: &mut [u8]'),
    ('crates/management_c/src/equipment.rt', '#[unsafe(no_mangle)]\n', ''),
    (COPY, 'RIME_RECEIVER_STATE = 9', 'RIME_RECEIVER_STATE = 5'),
    ('include/rimesatchel.h', 'RIME_RECEIVER_STATE = 9', 'RIME_RECEIVER_STATE = 5'),
    ('include/rimesatchel.h', 'uint32_t channels, uint32_t order, uint8_t', 'uint32_t order, uint32_t channels, uint8_t'),
    ('include/rimesatchel.h', 'uint32_t rime_receiver_placed', 'uint64_t rime_receiver_placed'),
    ('include/rime_management.h', 'const uint8_t *message', 'uint8_t *message'),
    ('include/rimesatchel.h', '#define RIME_VERSION "', '#define RIME_VERSION "9'),
    ('bindings/rust/src/face.rs', 'pub type ReceiverState = [u8; 9]', 'pub type ReceiverState = [u8; 5]'),
    ('bindings/rust/src/face.rs', 'samples_len: usize', 'samples_len: u32'),
    ('bindings/rust/src/face.rs', 'channels: u32,\n            order: u32,', 'order: u32,\n            channels: u32,'),
    ('bindings/rust/src/management.rs', 'pub fn rime_controller(', 'pub fn rime_controllers('),
    (PYTHON, 'octets in (7, 9, 4, 25)', 'octets in (7, 5, 4, 25)'),
    (PYTHON, '"rime_send": [_SENDER, c_bool, ', '"rime_send": [_SENDER, c_uint32, '),
    (PYTHON, '    "rime_controller": [*_RUN8, *_RUN8],\n', ''),
    (PYTHON, '{"rime_receiver_placed": c_uint32}', '{}'),
]


def planted(files):
    """Each fault alone; how many were noticed."""
    for path, stands, fault in FAULTS:
        if stands not in files[path]:
            sys.exit(f'faces: {path} has no `{stands}`, in which a fault is planted: name another in tests/faces.py')
        wrong, _ = differences({**files, path: files[path].replace(stands, fault, 1)})
        if not wrong:
            sys.exit(f'faces: not noticed: {path} with `{fault}`')
    return len(FAULTS)


def main():
    files = texts()
    wrong, calls = differences(files)
    for line in wrong:
        print(f'faces: {line}', file=sys.stderr)
    if wrong or not calls:
        sys.exit(1)
    print(f'faces: {calls} calls are the same in Rattle, C, Rust and Python')
    if '--planted' in sys.argv[1:]:
        print(f'faces: {planted(files)} planted faults were noticed')


if __name__ == '__main__':
    main()
