#!/usr/bin/env python3
"""Counts the places of the eight points of docs/DESIGN-PASS.md in crates/*/src, and lists them.

    tools/places.py           the counts
    tools/places.py POINT     the places of one point, a line each

A count is of forms that a search finds. Which of them is a place, and why one stays, is on the page."""

import collections
import pathlib
import re
import sys

ROOT = pathlib.Path(__file__).resolve().parent.parent / 'crates'
WORD = re.compile(r"[A-Za-z_]\w*|\d[\w]*|'[^']*'|\"(?:\\.|[^\"\\])*\"|\S")


def sources():
    for path in sorted(ROOT.glob('*/src/**/*.rt')):
        yield path.relative_to(ROOT), path.read_text()


def plain(text):
    """Without comments, each line where it was."""
    return '\n'.join(line.split('//')[0] for line in text.split('\n'))


def functions(text):
    """(first line, name, signature, clauses, body) of each function; the layout is rt fmt's."""
    lines = text.split('\n')
    at = 0
    while at < len(lines):
        head = re.match(r'( *)(?:pub(?:\(crate\))? )?(?:extern "C" )?fn (\w+)', lines[at])
        if not head:
            at += 1
            continue
        indent = head.group(1)
        end = at
        while end < len(lines) and lines[end].rstrip() != indent + '}':
            end += 1
        whole = lines[at:end + 1]
        opening = next((i for i, line in enumerate(whole) if line in (indent + '{',) or line.endswith(') {')
                        or re.search(r'-> [^{]*\{$', line)), len(whole) - 1)
        clause = re.compile(r' *(requires|ensures)')
        clauses = [line.strip() for line in whole[:opening] if clause.match(line)]
        signature = ' '.join(line.strip() for line in whole[:opening + 1] if not clause.match(line))
        yield at + 1, head.group(2), signature, clauses, whole[opening + 1:-1]
        at = end + 1


def lines_with(pattern):
    found = []
    for path, text in sources():
        for number, line in enumerate(plain(text).split('\n'), 1):
            if re.search(pattern, line):
                found.append(f'{path}:{number}: {line.strip()}')
    return found


def twins():
    """Functions whose bodies are alike when numbers, the names of integer types and the functions' own crate-mates are left out."""
    alike = collections.defaultdict(list)
    for path, text in sources():
        for number, name, _, _, body in functions(plain(text)):
            words = WORD.findall(' '.join(body))
            if len(words) < 12:
                continue
            shape = tuple('0' if word[0].isdigit() else 'int' if re.fullmatch(r'[ui](8|16|32|64|size)', word) else word
                          for word in words)
            names = {}
            shape = tuple(names.setdefault(word, f'n{len(names)}') if re.match(r'[A-Za-z_]', word) else word for word in shape)
            alike[shape].append(f'{path}:{number}: {name}')
    return [' = '.join(group) for group in alike.values() if len(group) > 1]


def clauses_thrice():
    """Conjuncts of clauses that stand in three or more functions of a crate."""
    stands = collections.Counter()
    for path, text in sources():
        for _, _, _, clauses, _ in functions(text):
            parts = set()
            for clause in clauses:
                if clause.startswith('requires'):
                    inner = clause.partition('{')[2].rpartition('}')[0]
                    parts |= {part.strip(' ()') for part in inner.split(' × ')}
            for part in parts:
                stands[(path.parts[0], part)] += 1
    return [f'{crate}: {part}: {count} functions' for (crate, part), count in sorted(stands.items()) if count > 2]


def parameters_together():
    """Three or more parameters that stand side by side, with their types, in four or more functions of a crate."""
    stands = collections.Counter()
    for path, text in sources():
        for _, _, signature, _, _ in functions(plain(text)):
            inner = re.search(r'\((.*)\)', signature)
            names = tuple(re.findall(r'(\w+: [^,()]+?)(?:,|$)', inner.group(1))) if inner else ()
            for first in range(len(names) - 2):
                stands[(path.parts[0], names[first:first + 3])] += 1
    return [f'{crate}: {", ".join(names)}: {count} functions' for (crate, names), count in sorted(stands.items()) if count > 3]


def chains():
    """Functions that give yes or no by two or more early returns."""
    found = []
    for path, text in sources():
        for number, name, signature, _, body in functions(plain(text)):
            if '-> bool' in signature and sum('return' in line for line in body) > 1:
                found.append(f'{path}:{number}: {name}')
    return found


def refusals():
    """Functions that answer with a refusal's number."""
    found = []
    for path, text in sources():
        for number, name, signature, _, body in functions(plain(text)):
            if signature.endswith(('-> u8', '-> u8 {')) and ('refusal' in name or 'refusal' in ' '.join(body)):
                found.append(f'{path}:{number}: {name}')
    return found


FLAG = r'^ *(pub )?(what|stage|answer|fault|kind|why|refusal|started|sure|waits|may): (u8|u16|u32|u64|usize),'
POINTS = {
    '1a own enums': lambda: lines_with(r'^(pub )?enum '),
    '1b a refusal or a kind as a number in a struct': lambda: lines_with(FLAG),
    '1c a refusal as the answer of a function': refusals,
    '2 bodies that are alike': twins,
    '3 loops': lambda: lines_with(r'\bwhile\b.*\{$'),
    '3 of these, by hand': lambda: lines_with(r'^ *\w+ (\+|-)= (1|step|octets|\w+);$'),
    '4a structs and enums that derive no equality': lambda: lines_with(r'derive\((?!.*PartialEq)'),
    '4b a field named twice': lambda: lines_with(r'^ *(\w+): \1,$'),
    '4c yes or no by early returns': chains,
    '4d conversions of our own': lambda: lines_with(r'fn wide\b'),
    '5a a clause in three functions': clauses_thrice,
    '5b parameters that go together': parameters_together,
    '6 an array with a length beside it': lambda: lines_with(r'^ *(pub )?\w+: \[u(8|64); \w+\],$'),
    '7 closures, function parameters, dyn': lambda: lines_with(r'\bFn(Mut|Once)?\(|\bdyn\b|[(,] *(move )?\|[^|]*\| '),
}


def main():
    asked = sys.argv[1] if len(sys.argv) > 1 else None
    for point, find in POINTS.items():
        if asked and not point.startswith(asked):
            continue
        found = find()
        print(f'{len(found):4} {point}')
        if asked:
            print('\n'.join('     ' + line for line in found))
    if not asked or asked == '8':
        answers = [path for path in ROOT.glob('*/proofs/**/Answers.antt')]
        lines = sum(len(path.read_text().split('\n')) - 1 for path in answers)
        print(f'{len(answers):4} 8 files of answers, {lines} lines')


if __name__ == '__main__':
    main()
