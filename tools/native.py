#!/usr/bin/env python3
"""Builds what users link and run, of what rt proved: archives for this machine and for the other one of the two, and programs.

  native.py machine [MACHINE]        prints the name of this machine, or that name; refuses one for which nothing is built
  native.py programs [NAME..]        proves programs, all four where none is named, and what they need: target/bin/NAME
  native.py program NAME MACHINE     the same for the other machine, by its gcc (MACHINE-linux-gnu-gcc): target/MACHINE/NAME
  native.py archive NAME [MACHINE]   proves the archive of the library NAME and what it needs: target/staticlib/libNAME.a, and its
                                     LLVM module, target/module/NAME.bc; for the other machine target/MACHINE/libNAME.a
  native.py module NAME              writes target/module/NAME.bc if it isn't there
  native.py proved                   the same archives and programs over what `rt ci` has just proved in this folder: the gate
  native.py sources                  prints a checksum of the crates; in RIME_PROVED the gate says by it what `rt ci` has proved
  native.py build MODULE FILE [MACHINE]
                                     builds an archive if FILE ends in .a, else a program, of a module that needn't be proved
                                     (tools/quick_face.py, tools/quick.py)

An archive is that of a crate of its own, NAME_c, with a function for C for each call. `rattle build` proves that crate over the
libraries that rt proved, and compiles it: it builds nothing that isn't proved. It is called here and not by rt for three
reasons: `rt lib` compiles for newer x86-64 processors alone, it keeps no LLVM module, and after `rt ci`, which leaves only the
statements of the libraries that it proved, it would prove all of these once more.

The module comes of a folder of links to the toolchain's tools, in which clang is a script: it calls clang as rattle asks, and
keeps the module and the object that came of it. The object has to be the one in the archive.
"""
import functools
import hashlib
import os
import pathlib
import platform
import re
import shlex
import shutil
import subprocess
import sys
import tempfile

HERE = pathlib.Path(__file__).resolve().parent
ROOT = HERE.parent
TARGET = ROOT / 'target'
MODULES = TARGET / 'module'
MACHINE = platform.machine()
LIBRARIES = ('rimesatchel', 'management')
PROGRAMS = ('linelist', 'anything', 'salvage', 'sheet')

# The machines that there is code for, and the processors that rattle compiles for there: all of them. A third machine isn't added
# by a line here: LINKING.md, "Platforms".
CPU = {'x86_64': 'x86-64', 'aarch64': 'generic'}
NARROW = re.compile(r'i[3-6]86|x86|x32|arm|arm(v[4-8]|hf|el|eb).*|riscv32|ppc|powerpc|mips|mipsel|s390|wasm32')

# As rattle calls clang, but for the machine.
AS_RATTLE = ['-fPIC', '-O3', '-ffunction-sections', '-fdata-sections']
for word in ('-trap-unreachable', '-no-trap-after-noreturn', '-no-x86-call-frame-opt', '-disable-machine-licm',
             '-disable-postra-machine-licm', '-sink-common-insts=false'):
    AS_RATTLE += ['-mllvm', word]

# The C functions that take and give the same on every Linux of 64 bits. One with a struct, as fstat, might not; of open the
# programs use no flag that has another number elsewhere.
ALIKE = {'memcpy', 'memmove', 'memset', 'read', 'write', 'open', 'close', 'isatty', '__sysv_signal', '__xpg_strerror_r',
         'rattle_arg', 'rattle_arg_count', 'rattle_errno', 'rattle_set_errno'}


def known(machine):
    """The machine's name, if it is one of the two."""
    if machine in CPU:
        return machine
    why = ('lengths have 64 bits in the library, and size_t has 32 there' if NARROW.fullmatch(machine) else
           'what the library promises a caller in C was seen for x86_64 and aarch64 alone')
    sys.exit(f'native: nothing is built for {machine or "a machine without a name"}: {why} (docs/LINKING.md, Platforms)')


def known_here():
    if platform.system() != 'Linux' or MACHINE not in CPU:
        sys.exit(f'native: this machine is {platform.system()} on {MACHINE}, and Rimesatchel needs Linux on x86_64 or aarch64')
    return MACHINE


def printed_by(*words):
    return subprocess.run(words, stdout=subprocess.PIPE, check=True).stdout


@functools.cache
def kit():
    """The folder of the Rattle toolchain."""
    return pathlib.Path(printed_by('rt', 'doc').decode().strip()).parent


def tool(name):
    return kit() / 'toolchain' / 'bin' / name


@functools.cache
def listed():
    """What crates.txt says: of each crate the word behind its name, as staticlib, and what it needs."""
    found = {}
    for line in (ROOT / 'crates.txt').read_text(encoding='utf-8').splitlines():
        head, _, needed = line.partition('#')[0].partition(':')
        if head.strip():
            name, *kind = head.split()
            found[name] = kind, needed.replace(',', ' ').split()
    return found


def below(name):
    """The libraries of this repository that a crate needs, each after those that it needs itself."""
    found = []
    for needed in listed()[name][1]:
        if needed in listed():
            found += [crate for crate in [*below(needed), needed] if crate not in found]
    return found


def rt(crate, *words, **how):
    """Runs rt in a crate's folder."""
    sys.stdout.flush()
    ran = subprocess.run(['rt', *words], cwd=ROOT / 'crates' / crate, stdin=subprocess.DEVNULL, check=False, **how)
    if ran.returncode:
        sys.exit(f'native: {crate} is not proved')


@functools.cache
def sources():
    """A checksum of all files of the crates but what rt writes."""
    total = hashlib.sha256((ROOT / 'crates.txt').read_bytes())
    for path in sorted((ROOT / 'crates').rglob('*')):
        inside = path.relative_to(ROOT)
        if path.is_file() and inside.parts[2:3] != ('out',):
            total.update(f'{inside} {path.stat().st_size}\n'.encode() + path.read_bytes())
    return total.hexdigest()


@functools.cache
def by_ci(name):
    """Whether .ci/run says that the libraries below a crate stand as `rt ci` has just proved them. Those of an rt by hand have a
    stamp."""
    rlibs = [(ROOT / 'crates' / crate / 'out' / 'rlib', crate) for crate in below(name)]
    return os.environ.get('RIME_PROVED') == sources() and all(
        (rlib / f'{crate}.rlib').is_dir() and not (rlib / 'stamp').exists() for rlib, crate in rlibs)


def libraries(name):
    """Has rt prove the libraries below a crate."""
    for crate in listed()[name][1] if not by_ci(name) else []:
        if crate in listed():
            rt(crate, 'lib')


def by_rattle(name, machine, out, toolchain):
    """Proves a crate over the libraries below it, as they stand proved, and compiles it for a machine."""
    kind, needed = listed()[name]
    folder = ROOT / 'crates' / name
    words = [kit() / 'bin' / 'rattle', 'build', '--crate-name', name]
    words += ['src/main.rt' if (folder / 'src' / 'main.rt').exists() else 'src/lib.rt']
    for crate in ['std', *needed]:
        rlibs = ROOT / 'crates' / crate / 'out' / 'rlib' if crate in listed() else kit() / 'rlibs'
        words += ['--extern', f'{crate}={rlibs}/{crate}.rlib']
    for rlibs in [kit() / 'rlibs', *(ROOT / 'crates' / crate / 'out' / 'rlib' for crate in below(name))]:
        words += ['-L', f'dependency={rlibs}']
    words += ['--antt-project', kit() / 'rattle' / 'logic' / 'antt-project.json', '--logic-built', kit() / 'logic_built']
    words += ['--crate-type', 'staticlib'] if 'staticlib' in kind else []
    if not by_ci(name):
        # what rt keeps for its next check
        (folder / 'out').mkdir(exist_ok=True)
        words += ['--incremental', 'out/incremental']
    words += ['--links', f'{name}=', '--jobs', str(min(4, len(os.sched_getaffinity(0))))]
    words += ['--target', f'{machine}-unknown-linux-gnu', '--cpu', CPU[machine], '--toolchain', toolchain, '-o', out]
    sys.stdout.flush()
    ran = subprocess.run(words, cwd=folder, stdin=subprocess.DEVNULL, stderr=subprocess.STDOUT, check=False)
    if ran.returncode:
        sys.exit(f'native: {name} is not proved, or not built')


def keeping(room):
    """A toolchain that keeps the module and the object of each compilation in a folder. It lies there too."""
    mine = room / 'toolchain'
    (mine / 'bin').mkdir(parents=True)
    (mine / 'lib').symlink_to(kit() / 'toolchain' / 'lib')
    for path in (kit() / 'toolchain' / 'bin').iterdir():
        if path.name != 'clang':
            (mine / 'bin' / path.name).symlink_to(path)
    clang = mine / 'bin' / 'clang'
    clang.write_text(f'''#!/usr/bin/env bash
set -eu
{shlex.quote(str(tool('clang')))} "$@"
last=
for word in "$@"; do
    case $word in *.bc) cp "$word" {shlex.quote(str(room))}/module.bc ;; esac
    case $last$word in -o*.o) cp "$word" {shlex.quote(str(room))}/module.o ;; esac
    last=$word
done
''', encoding='utf-8')
    clang.chmod(0o755)
    return mine


def words_of(module):
    return printed_by(tool('clang'), '--no-default-config', '-Wno-override-module', '-x', 'ir', '-S', '-emit-llvm', '-Xclang',
                      '-disable-llvm-passes', module, '-o', '-').decode()


def looked_at(module):
    """A module's words, of which each function for C takes what C's callers give."""
    words = words_of(module)
    # C's callers needn't widen what they pass on AArch64, and no function for C may count on it
    if wide := re.search(r'^define (?!internal |private )[^@\n]*@([^(\n]*)\(.*\b(?:zero|sign)ext\b', words, re.M):
        sys.exit(f'native: {wide[1]} counts on a caller who widens a number, and C has none on AArch64')
    return words


def calls_alike(code):
    """An object calls no C function but those that are alike on every machine."""
    called = printed_by('nm', '-u', code).decode().split()[1::2]
    if strange := sorted(set(called) - ALIKE):
        sys.exit(f'native: {" ".join(strange)} is called: is it alike on every machine? (ALIKE in tools/native.py)')


def put(file, place):
    """Puts a file in its place, whole."""
    place.parent.mkdir(parents=True, exist_ok=True)
    new = place.with_name(f'{place.name}.{os.getpid()}.new')
    shutil.copyfile(file, new)
    new.chmod(0o644 if '.' in place.name else 0o755)
    new.rename(place)


def archive(name, machine):
    """The archive of a library, and for this machine its module."""
    crate = f'{name}_c'
    libraries(crate)
    with tempfile.TemporaryDirectory() as folder:
        room = pathlib.Path(folder)
        made, module, code = (room / part for part in ('made.a', 'module.bc', 'module.o'))
        by_rattle(crate, machine, made, keeping(room))
        if printed_by('ar', 'p', made) != code.read_bytes():
            sys.exit(f'native: the archive of {name} is not of the module that was kept')
        looked_at(module)
        calls_alike(code)
        if machine == MACHINE:
            put(module, MODULES / f'{name}.bc')
        put(made, TARGET / ('staticlib' if machine == MACHINE else machine) / f'lib{name}.a')


def program(name, machine=MACHINE):
    """A program for a machine. For x86-64 rt has built it; for AArch64 the same crate is compiled once more."""
    place = TARGET / ('bin' if machine == MACHINE else machine) / name
    if machine == 'x86_64':
        put(ROOT / 'crates' / name / 'out' / name, place)
        return
    with tempfile.TemporaryDirectory() as folder:
        code, made = pathlib.Path(folder) / 'program.o', pathlib.Path(folder) / 'made'
        by_rattle(name, machine, code, kit() / 'toolchain')
        link(code, made, machine)
        put(made, place)


def link(code, made, machine=MACHINE):
    """A program of an object: with the toolchain's own C code, which there is for x86-64, or with native_os.c in its place."""
    if machine == 'x86_64':
        c_code = [kit() / 'c' / name for name in ('libos_c.a', 'liblibc_c.a')]
        subprocess.run([kit() / 'bin' / 'rattle-link', '--target', 'x86_64-unknown-linux-gnu', '--toolchain', kit() / 'toolchain',
                        '-o', made, code, *c_code], stderr=subprocess.DEVNULL, check=True)
        return
    calls_alike(code)
    gcc = 'gcc' if machine == MACHINE else f'{machine}-linux-gnu-gcc'
    if not shutil.which(gcc):
        sys.exit(f'native: {gcc} is missing: Debian has it in the package gcc-{machine.replace("_", "-")}-linux-gnu')
    subprocess.run([gcc, '-O2', '-Wl,--gc-sections', code, HERE / 'native_os.c', '-o', made], check=True)


def build(module, file, machine=MACHINE):
    """A program or an archive for a machine, of an LLVM module."""
    file = pathlib.Path(file)
    words = looked_at(module)
    with tempfile.TemporaryDirectory() as folder:
        # an archive's object has the crate's name
        text, code, made = (pathlib.Path(folder) / part for part in ('module.ll', f'{file.stem.removeprefix("lib")}.o', 'made'))
        text.write_text(re.sub(r' "target-cpu"="[^"]*"', '', words), encoding='utf-8')
        subprocess.run([tool('clang'), f'--target={machine}-unknown-linux-gnu', '--no-default-config', '-Werror',
                        '-Wno-override-module', '-x', 'ir', *AS_RATTLE, '-c', text, '-o', code], check=True)
        if file.suffix == '.a':
            calls_alike(code)
            subprocess.run([tool('llvm-ar'), 'rcsD', made, code], check=True)
        else:
            link(code, made, machine)
        file.parent.mkdir(parents=True, exist_ok=True)
        shutil.copy(made, file)


def main(words):
    known_here()
    if words[:1] == ['machine']:
        print(known(words[1] if words[1:] else MACHINE))
    elif words[:1] == ['programs']:
        for name in words[1:] or PROGRAMS:
            rt(name, 'run', stdout=subprocess.DEVNULL)
            program(name)
    elif words[:1] == ['program'] and len(words) == 3:
        if not by_ci(words[1]):
            rt(words[1], 'run', stdout=subprocess.DEVNULL)
        program(words[1], known(words[2]))
    elif words[:1] == ['archive'] and len(words) in (2, 3):
        archive(words[1], known(words[2] if words[2:] else MACHINE))
    elif words[:1] == ['module'] and len(words) == 2:
        if not (MODULES / f'{words[1]}.bc').exists():
            archive(words[1], MACHINE)
        (MODULES / f'{words[1]}.bc').touch()
    elif words == ['proved']:
        for name in LIBRARIES:
            archive(name, MACHINE)
        for name in PROGRAMS:
            program(name)
    elif words == ['sources']:
        print(sources())
    elif words[:1] == ['build'] and len(words) in (3, 4):
        build(words[1], words[2], known(words[3] if words[3:] else MACHINE))
    else:
        sys.exit(__doc__)


if __name__ == '__main__':
    main(sys.argv[1:])
