#!/usr/bin/env bash
# What docs/PROMISES.md names is there: definitions and theorems in the file that it names, functions, edits (a must-fail edit
# of the crate, or a mutant in tests/mutants). It names every must-fail edit, and counts them right.
set -eu
export LC_ALL=C
python3 - <<'PY'
import pathlib
import re
import sys

crates = pathlib.Path('crates')
mutants = pathlib.Path('tests/mutants')
text = pathlib.Path('docs/PROMISES.md').read_text(encoding='utf-8')
# a list's item is one line, however it is broken
text = re.sub(r'\n +(?=[^\s-])', ' ', text)
wrong = []
named = 0


def has(word, where):
    return re.search(r'(?<![\w\-])' + re.escape(word) + r'(?![\w\-])', where) is not None


def read(files):
    return '\n'.join(file.read_text(encoding='utf-8') for file in files)


def is_edit(crate, name):
    return any(path.exists() for path in (crates / crate / 'must-fail' / f'{name}.edit', mutants / crate / f'{name}.edit'))


# crate/File: `name`, `name`, up to a semicolon
for crate, file, names in re.findall(r'(\w+)/(\w+)(?:`?: ([^;|\n]*))?', text):
    if not (crates / crate).is_dir() or is_edit(crate, file):
        continue
    files = [path for part in ('specs', 'proofs') if (path := crates / crate / part / f'{file}.antt').exists()]
    if not files:
        wrong.append(f'{crate}/{file}: no such file or edit')
    for name in re.findall(r"`([\w\-']+)`", names):
        named += 1
        if not has(name, read(files)):
            wrong.append(f'{crate}/{file}: no `{name}`')

# `crate::function`
for crate, function in set(re.findall(r'`(\w+)::((?:\w+::)*\w+)`', text)):
    if (crates / crate).is_dir():
        named += 1
        word = function.split('::')[-1]
        if not re.search(rf'\b(?:fn|struct) {word}\b', read((crates / crate / 'src').glob('**/*.rt'))):
            wrong.append(f'{crate}: no function or struct {word}')

# crate/edit, edit, edit
for crate, first, others in re.findall(r'(\w+)/([a-z]\w*)((?:, [a-z0-9]+_\w+)+)', text):
    if (crates / crate).is_dir() and is_edit(crate, first):
        for name in others.split(', ')[1:]:
            named += 1
            if not is_edit(crate, name):
                wrong.append(f'{crate}/{name}: no such edit')

edits = list(crates.glob('*/must-fail/*.edit'))
for count in re.findall(r'[Oo]f the (\d+) edits', text):
    if int(count) != len(edits):
        wrong.append(f'{count} edits: there are {len(edits)}')
for edit in edits:
    named += 1
    if not has(edit.stem, text):
        wrong.append(f'{edit}: not named')

for line in wrong:
    print(f'docs/PROMISES.md: {line}', file=sys.stderr)
if wrong or not named:
    sys.exit(1)
print(f'docs/PROMISES.md: {named} names are there')
PY
