#!/usr/bin/env python3
"""Run once after tools/spelling.py (docs/PORT.md): ten definitions that had got a lemma's suffix have their own name, the lemma of that
name in the same file has the suffix, and what spelling.py passed over, the names of sections, is in snake case too.

  python3 tools/suffixes.py     at the top of the repository: rewrites crates/, tests/, docs/ and docs/port-names.tsv
"""
import os
import re

TOKEN = re.compile(r"[^\s(){}\[\],;.«»λ:|\"`]+")
DEFINITIONS = ['from_first', 'is_cut', 'kept_by', 'lies_whole', 'no_record', 'one_more', 'past_all', 'past_one', 'read_off', 'reads_on', 'refused_end']
# where a lemma of the file had the plain name
SWAPPED = {'from_first': 'crates/line/proofs/Bound.antt', 'is_cut': 'crates/cell_log/proofs/Groups.antt',
           'kept_by': 'crates/line/proofs/Tools.antt', 'lies_whole': 'crates/pieces/proofs/Octets.antt'}
SECTIONS = {
    'crates/management/proofs/Calls.antt': {'comes-to': 'comes_to'},
    'crates/management/proofs/Demands.antt': {'specified-status': 'specified_status'},
    'crates/presence/proofs/Said.antt': {'heard-here': 'heard_in_place'},
    'crates/pieces/proofs/Division.antt': {'longer-part': 'longer_part'},
    'crates/formats/proofs/Laws.antt': {'not-true': 'not_true'},
    'crates/pages/proofs/Face.antt': {'received-here': 'received_call', 'sent-here': 'sent_call'},
    'crates/receiver/proofs/Spread.antt': {'so-many': 'so_many'},
    'crates/sender/proofs/many/walk/Answers.antt': {'or-whole': 'or_whole'},
}


def read(path):
    with open(path, encoding='utf-8') as file:
        return file.read()


def write(path, text):
    with open(path, 'w', encoding='utf-8') as file:
        file.write(text)


def turned(names, text):
    def one(it):
        if '-' in it[0] and text[it.start() - 1:it.start()] == '.':
            return it[0]  # a name of another module
        return names.get(it[0], it[0])
    return TOKEN.sub(one, text)


def files():
    for top in ('crates', 'tests/mutants', 'tests/edits', 'docs'):
        for folder, dirs, names in os.walk(top):
            dirs[:] = [d for d in dirs if d != 'out']
            for name in names:
                if name.endswith(('.antt', '.rt', '.edit', '.md')) and name != 'PORT.md':
                    yield os.path.join(folder, name)


def main():
    plain = {f'{name}_lem': name for name in DEFINITIONS}
    for path in files():
        text = read(path)
        names = dict(plain)
        for name, place in SWAPPED.items():
            if path == place:
                names[name] = f'{name}_lem'
        for old in list(names):
            if old in SECTIONS.get(path, {}):
                raise SystemExit(f'{path}: {old} twice')
        new = turned(names | SECTIONS.get(path, {}), text)
        if new != text:
            for name in SECTIONS.get(path, {}).values():
                if name in TOKEN.findall(text):
                    raise SystemExit(f'{path}: {name} is there already')
            write(path, new)
    lines = []
    for line in read('docs/port-names.tsv').split('\n'):
        old, _, new = line.partition('\t')
        lines.append(f'{old}\t{plain.get(new, new)}' if new else line)
    write('docs/port-names.tsv', '\n'.join(lines))


main()
