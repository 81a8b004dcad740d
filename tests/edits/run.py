#!/usr/bin/env python3
"""Tries the edits of the four programs: each is built without proof, and a test must stop it: `make edits`.

  run.py [CRATE...]          the edits of these crates, or all
  run.py --prove [CRATE...]  what the prover says of the same edits: of those in a library it refuses each that changes an answer;
                             of those in a program it takes most, since no promise speaks of what a program reads and writes

An edit has the format of a mutant (tests/mutants/README.md). The crates are copied to a folder of their own, among the temporary
files. What it changes is changed there, the programs that use the crate are built, and the scripts of tests/gate that try programs
run until one fails.
"""
import os
import pathlib
import shutil
import signal
import subprocess
import sys
import tempfile

ROOT = pathlib.Path(__file__).resolve().parent.parent.parent
sys.path.insert(0, str(ROOT / 'tests' / 'mutants'))
sys.path.insert(0, str(ROOT / 'tools'))
import native  # noqa: E402
import run as mutants  # noqa: E402

EDITS = ROOT / 'tests' / 'edits'
PROGRAMS = {
    'linelist': '20-linelist', 'anything': '22-anything', 'salvage': '25-salvage', 'sheet': '27-sheet',
}
LOOPS = '28-programs'


def programs_of(crate):
    """The programs that use a crate, by crates.txt."""
    return [program for program in PROGRAMS if crate in [program, *native.below(program)]]


def changed(crate, edit, scratch):
    """Puts the edit into the copy of the crates."""
    shutil.rmtree(scratch / 'crates')
    copied(scratch)
    mutants.apply(edit, scratch / 'crates' / crate)


def copied(scratch):
    shutil.copytree(ROOT / 'crates', scratch / 'crates', ignore=shutil.ignore_patterns('proofs', 'must-fail', 'out'))


def built(program, scratch):
    """Builds a program of the copy without proof; says what went wrong, or nothing."""
    ran = subprocess.run([sys.executable, 'tools/quick.py', program], cwd=scratch, stdin=subprocess.DEVNULL, capture_output=True,
                         text=True, check=False)
    made = scratch / 'target' / 'quick' / program
    if ran.returncode or not made.exists():
        said = [line for line in (ran.stdout + ran.stderr).split('\n') if line.strip()]
        return f'the trial run of {program} as it is built: {said[-1][:160] if said else "no word"}'
    shutil.copy(made, scratch / 'programs' / program)
    return ''


def stopped_by(programs, scratch):
    """The first script that fails, and its words; nothing where all pass."""
    for script in [PROGRAMS[program] for program in programs] + [LOOPS]:
        ran = subprocess.Popen(['bash', f'tests/gate/{script}.sh'], cwd=ROOT, stdout=subprocess.PIPE, stderr=subprocess.STDOUT,
                               text=True, errors='replace', env={**os.environ, 'PROGRAMS': str(scratch / 'programs')},
                               start_new_session=True)
        try:
            out, _ = ran.communicate(timeout=200)
        except subprocess.TimeoutExpired:
            os.killpg(ran.pid, signal.SIGKILL)  # the script, and the program that goes on for ever
            ran.communicate()
            return f'{script}.sh, which did not end'
        if ran.returncode:
            said = [line for line in out.split('\n') if line.strip()]
            return f'{script}.sh: {said[-1][:160] if said else "no word"}'
    return ''


def prepare(scratch):
    (scratch / 'programs').mkdir()
    shutil.copy(ROOT / 'crates.txt', scratch)
    shutil.copytree(ROOT / 'tools', scratch / 'tools')
    copied(scratch)
    for program in PROGRAMS:
        wrong = built(program, scratch)
        if wrong:
            sys.exit(f'edits: as it stands, {wrong}')
    shutil.copytree(scratch / 'programs', scratch / 'unchanged')
    said = stopped_by(list(PROGRAMS), scratch)
    if said:
        sys.exit(f'edits: the programs as they stand are stopped by {said}')


def try_edits(crates):
    stopped = passed = 0
    with tempfile.TemporaryDirectory(prefix='rimesatchel-') as folder:
        scratch = pathlib.Path(folder)
        prepare(scratch)
        for edit in [edit for crate in crates for edit in sorted((EDITS / crate).glob('*.edit'))]:
            crate = edit.parent.name
            changed(crate, edit, scratch)
            shutil.copytree(scratch / 'unchanged', scratch / 'programs', dirs_exist_ok=True)
            programs = programs_of(crate)
            said = next(filter(None, (built(program, scratch) for program in programs)), '') or stopped_by(programs, scratch)
            stopped, passed = stopped + bool(said), passed + (not said)
            wrong = mutants.what_is_wrong(edit)
            print(f'{"stopped" if said else "NOT STOPPED":12} {crate}/{edit.stem}: {wrong} ({said})', flush=True)
    print(f'edits: {stopped} stopped, {passed} not')
    return not passed


def main():
    words = sys.argv[1:]
    with_edits = sorted(folder.name for folder in EDITS.iterdir() if any(folder.glob('*.edit')))
    crates = [word for word in words if word != '--prove'] or with_edits
    for crate in crates:
        if crate not in with_edits:
            sys.exit(f'edits: {crate} has none (there are: {" ".join(with_edits)})')
    if not mutants.check_edits():
        return False
    if '--prove' not in words:
        return try_edits(crates)
    mutants.MUTANTS = EDITS
    if not mutants.proved(crates):
        sys.exit('edits: a crate is not proved as it stands; see `rt check`')
    mutants.try_mutants(crates)
    return True


if __name__ == '__main__':
    sys.exit(0 if main() else 1)
