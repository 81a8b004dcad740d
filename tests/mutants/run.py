#!/usr/bin/env python3
"""Tries the mutants: small wrong changes of the crates, each of which the prover must refuse.

  run.py [CRATE...]     try the mutants of these crates, or all: `make mutants`
  run.py --joint [CRATE...]  try the joint edits of these crates, or all: those with a line `above:`
  run.py --applies      only see that each edit, those of tests/edits and the must-fail edits too, still fits the file that it changes:
                        the gate

The crates are copied to a folder of their own, among the temporary files, with the mutants in the place of their must-fail
edits; `rt must-fail` tries them there. Here they couldn't lie: `rt ci` refuses a folder with crates that crates.txt doesn't name.
Joint edits of different crates are tried together, in one copy.
"""
import contextlib
import os
import pathlib
import re
import shutil
import subprocess
import sys
import tempfile

ROOT = pathlib.Path(__file__).resolve().parent.parent.parent
MUTANTS = ROOT / 'tests' / 'mutants'
AT_A_TIME = '2'


def what_is_wrong(edit):
    """The comment that an edit begins with."""
    first = edit.read_text(encoding='utf-8').split('\n', 1)[0]
    return first[2:].strip() if first.startswith('# ') else ''


def fault_of(edit, crate):
    """Why rt could not apply the edit, or nothing. An edit is read as rt reads it: `file:`, then pairs of `old:`, `new:`."""
    if edit.parent.name != 'must-fail' and not what_is_wrong(edit):
        return 'its first line does not say what is wrong (`# ...`)'
    texts, file, old, pairs = {}, '', '', 0
    for line in edit.read_text(encoding='utf-8').split('\n'):
        if line.startswith('file: '):
            file = line[6:]
        elif line.startswith('old: '):
            old = line[5:]
        elif line.startswith('new:'):
            if not re.match(r'(src|specs|proofs)/', file) or not (crate / file).is_file():
                return f'no file {file} in {crate.relative_to(ROOT)}'
            text = texts.get(file) or (crate / file).read_text(encoding='utf-8')
            if not old or text.count(old) != 1:
                return f'its `old:` text stands {text.count(old) if old else 0} times in {file}: {old}'
            texts[file] = text.replace(old, line[4:].removeprefix(' '))
            old, pairs = '', pairs + 1
    return '' if pairs else 'it has no `old:` and `new:`'


def line_of(edit, word):
    """What an edit says behind a word, as `above:`, or nothing."""
    found = re.search(rf'^{word}: (.+)$', edit.read_text(encoding='utf-8'), re.M)
    return found[1] if found else ''


def above_of(edit):
    """The crate with the page that must refuse a joint edit, `vectors` where no statement does, or nothing."""
    return line_of(edit, 'above')


def apply(edit, crate):
    """Applies an edit to a crate's files."""
    file = old = ''
    for line in edit.read_text(encoding='utf-8').split('\n'):
        if line.startswith('file: '):
            file = crate / line[6:]
        elif line.startswith('old: '):
            old = line[5:]
        elif line.startswith('new:'):
            file.write_text(file.read_text(encoding='utf-8').replace(old, line[4:].removeprefix(' ')), encoding='utf-8')


def rounds_of(crates):
    """The joint edits of these crates in rounds: one edit of a crate in each, and one crate above."""
    rounds = {}
    for edit in sorted(edit for crate in crates for edit in (MUTANTS / crate).glob('*.edit') if above_of(edit)):
        above, k = above_of(edit).replace('vectors', 'pages'), 0
        while any(other.parent == edit.parent for other in rounds.get((above, k), [])):
            k += 1
        rounds.setdefault((above, k), []).append(edit)
    return rounds


def refused_in(scratch, crate):
    """Proves a crate of the copy and what it needs; gives the statements, as `CRATE/FILE LEMMA`, and the functions that are refused,
    or none if it is proved."""
    run = subprocess.run(['rt', 'check'], cwd=scratch / 'crates' / crate, stdin=subprocess.DEVNULL, stdout=subprocess.PIPE,
                         stderr=subprocess.STDOUT, text=True, errors='replace', check=False)
    lower = re.search(r'^rt: the library (\w+) did not build', run.stdout, re.M)
    own = lower[1] if lower else crate
    found = re.findall(r'^(?:\./)?(?:proofs|specs)/(\S+?)\.antt:\S* error: `([^`]*)`([^\n]*)', run.stdout, re.M)
    first = [f'{own}/{file} {lemma}' for file, lemma, rest in found if 'was not admitted' not in rest]
    first += [f'function {name}' for name in re.findall(r'^fn (\S+): (?:not proved|no proof)', run.stdout, re.M)]
    return [] if run.returncode == 0 else first or ['no line named']


def try_round(above, edits):
    """Tries the edits of a round together: each one's own crate must stay proved, and the crate above refuse the statements that they
    name. Where the statement is in the own crate, only statements may be refused in it, so that every function is proved. Says how many
    didn't do so."""
    with copied([]) as scratch:
        return refused_round(above, edits, scratch)


def refused_round(above, edits, scratch):
    for edit in edits:
        apply(edit, scratch / 'crates' / edit.parent.name)
    for edit in edits:
        errors = refused_in(scratch, edit.parent.name) if edit.parent.name != above else []
        if errors:
            print(f'NOT COUNTED  {edit.parent.name}/{edit.stem}: its own crate refuses it ({errors[0]})', flush=True)
            return len(edits)
    bad, errors = 0, refused_in(scratch, above)
    functions = [error for error in errors if re.match(r'\w+/\S+/(?:Answers|Invariants|Proof) |function ', error)]
    for edit in edits:
        statement = f'{above}/{line_of(edit, "refused")}'
        good = not errors if above_of(edit) == 'vectors' else statement in errors and not functions
        by = 'vectors alone' if above_of(edit) == 'vectors' else statement
        verdict = 'refused    ' if good else 'NOT REFUSED'
        bad += not good
        print(f'{verdict}  {edit.parent.name}/{edit.stem}: {what_is_wrong(edit)} ({by if good else errors})', flush=True)
    return bad


def try_joint(crates):
    """Tries the joint edits, round after round; says whether each was refused as it says."""
    rounds = rounds_of(crates)
    # the rounds that prove most anew come last
    bad = sum(try_round(key[0], rounds[key]) for key in sorted(rounds, key=lambda key: (('line', 'pages').count(key[0]), key)))
    print(f'joint edits: {sum(map(len, rounds.values())) - bad} refused as they say, {bad} not')
    return not bad


def check_edits():
    """Prints the edits that can't be applied; says whether there are none."""
    good = bad = 0
    for edit in sorted([*ROOT.glob('tests/*/*/*.edit'), *ROOT.glob('crates/*/must-fail/*.edit')]):
        name = edit.parent.parent.name if edit.parent.name == 'must-fail' else edit.parent.name
        fault = fault_of(edit, ROOT / 'crates' / name)
        if fault:
            print(f'{edit.relative_to(ROOT)}: {fault}', file=sys.stderr)
            bad += 1
        else:
            good += 1
    print(f'edits: {good} fit the files that they change' + (f', {bad} do not' if bad else ''))
    return not bad


@contextlib.contextmanager
def copied(crates):
    """A copy of the repository's crates, with mutants in the place of must-fail edits. rt begins there with what it kept of the same
    crates elsewhere on this machine."""
    with tempfile.TemporaryDirectory(prefix='rimesatchel-') as folder:
        scratch = pathlib.Path(folder)
        shutil.copytree(ROOT / 'crates', scratch / 'crates', ignore=shutil.ignore_patterns('must-fail', 'out'))
        for file in ('crates.txt', 'HANDLES'):
            if (ROOT / file).exists():
                shutil.copy(ROOT / file, scratch)
        for crate in crates:
            place = scratch / 'crates' / crate / 'must-fail'
            place.mkdir()
            for edit in (MUTANTS / crate).glob('*.edit'):
                if not above_of(edit):
                    shutil.copy(edit, place)
        yield scratch


def proved(crates):
    """Proves crates as they stand; says whether they are."""
    return all(subprocess.run(['rt', 'check'], cwd=ROOT / 'crates' / crate, stdin=subprocess.DEVNULL, stdout=subprocess.DEVNULL,
                              check=False).returncode == 0 for crate in crates)


def try_mutants(crates):
    """Runs `rt must-fail`, and prints a line for each mutant; says whether all were refused."""
    refused = survived = 0
    with copied(crates) as scratch:
        process = subprocess.Popen(['rt', 'must-fail', *crates], cwd=scratch, stdin=subprocess.DEVNULL, stdout=subprocess.PIPE,
                                   text=True, errors='replace', env={'RT_JOBS': AT_A_TIME, **os.environ})
        for line in process.stdout:
            said = re.match(r'rt: must-fail (\S+)\.edit: (refused|NOT REFUSED|BAD EDIT|NOT TRIED)(.*)', line)
            if said:
                name, verdict, rest = said.groups()
                wrong = what_is_wrong(MUTANTS / f'{name}.edit')
                refused, survived = refused + (verdict == 'refused'), survived + (verdict != 'refused')
                told = rest.removeprefix(', as it must be').lstrip(': ') if verdict != 'NOT REFUSED' else ''
                print(f'{verdict:12} {name}: {wrong}' + (f' ({told[:200]})' if told else ''), flush=True)
        ended = process.wait()
    print(f'mutants: {refused} refused, {survived} not')
    return ended == 0 and not survived


def main():
    if sys.argv[1:] == ['--applies']:
        return check_edits()
    joint = sys.argv[1:2] == ['--joint']
    with_mutants = sorted({edit.parent.name for edit in MUTANTS.glob('*/*.edit') if bool(above_of(edit)) == joint})
    crates = sys.argv[2 if joint else 1:] or with_mutants
    for crate in crates:
        if crate not in with_mutants:
            print(f'mutants: {crate} has none (there are: {" ".join(with_mutants)})', file=sys.stderr)
            return False
    if not crates:
        print('mutants: there are none')
        return True
    if not check_edits():
        return False
    # What is changed must be proved as it is: rt proves what isn't yet.
    proves = {*crates, *(above for above, _ in rounds_of(crates))} if joint else crates
    if not proved(sorted(proves)):
        print('mutants: a crate is not proved as it stands; see `rt check`', file=sys.stderr)
        return False
    return try_joint(crates) if joint else try_mutants(crates)


if __name__ == '__main__':
    sys.exit(0 if main() else 1)
