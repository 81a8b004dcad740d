#!/usr/bin/env python3
"""What moved between two commits, and what stayed: the numbers of a landing's note.

usage: moved.py BEFORE AFTER [CRATE..]

Prints, for the crates named (default: all): definitions of specs/, promises of functions (what stands between a function's name
and its body), laws and proofs, each with how many stayed to the letter, and the names that changed, came or went; then the lines
of code, specs and proofs. Comments and layout don't count as a change.
"""
import re
import subprocess
import sys

if len(sys.argv) < 3:
    sys.exit(__doc__)
before, after, wanted = sys.argv[1], sys.argv[2], set(sys.argv[3:])


def git(*words):
    return subprocess.run(['git', *words], capture_output=True, text=True, check=True).stdout


def files(commit):
    found = {}
    for path in git('ls-tree', '-r', '--name-only', commit, 'crates').splitlines():
        crate = path.split('/')[1]
        if path.endswith(('.rt', '.antt')) and (not wanted or crate in wanted):
            found[path] = git('show', f'{commit}:{path}')
    return found


def bare(text, comment):
    lines = [re.sub(comment + r'.*', '', line) for line in text.split('\n')]
    return re.sub(r'\s+', ' ', ' '.join(lines)).strip()


def declared(path, text):
    """The declarations of an antt file: name to text. A `module` line's inner declarations count as their own."""
    found, name = {}, None
    for line in text.split('\n'):
        inner = line[2:] if line.startswith('  ') and not line.startswith('   ') else line
        said = re.match(r"(?:(?:abbrev|unfoldable|pub|private)\s+)*(?:record |data )?([^\s:({]+)\s*(?:\(.*|\{.*)?\s:", inner)
        if said and not inner.startswith((' ', '--', 'use ', 'where', 'let ', 'rw ', 'unfolding')):
            name = said.group(1)
            found.setdefault(name, '')
        elif re.match(r'(?:pub )?use |pub mod |--|module ', line):
            name = None if not line.startswith('--') else name
        if name:
            found[name] += line + '\n'
    return {f'{name}': bare(body, '--') for name, body in found.items()}


def promises(text):
    """The heads of functions, up to the body: name to text."""
    found, name = {}, None
    for line in text.split('\n'):
        begun = re.match(r'\s*(?:pub(?:\(crate\))? )?(?:extern "C" )?fn (\w+)', line)
        if begun and name is None:
            name, said = begun.group(1), []
        if name is None:
            continue
        ends = line.endswith(('{', ';')) and not re.match(r'\s*(?:ensures|requires)\b', line)
        said.append(line[:-1] if ends else line)
        # a body of one line stands behind its braces
        if ends or re.search(r'(?:\)|-> [^{}]*) \{.*\}$', line) and not re.match(r'\s*(?:ensures|requires)\b', line):
            found[name], name = bare('\n'.join(said), '//'), None
    return found


def gathered(tree):
    rows = {'definitions': {}, 'promises': {}, 'laws and proofs': {}}
    lines = {'code': 0, 'specs': 0, 'proofs': 0}
    for path, text in tree.items():
        crate, part = path.split('/')[1], path.split('/')[2]
        count = sum(1 for line in text.split('\n') if line.strip())
        if part == 'src':
            lines['code'] += count
            stem = path.split('/src/')[1][:-3]
            for name, said in promises(text).items():
                rows['promises'][f'{crate}::{"" if stem in ("lib", "main") else stem + "::"}{name}'] = said
        elif part in ('specs', 'proofs'):
            lines[part] += count
            kind = 'definitions' if part == 'specs' else 'laws and proofs'
            stem = path.split(f'/{part}/')[1][:-5]
            for name, said in declared(path, text).items():
                rows[kind][f'{crate}/{stem}: {name}'] = said
    return rows, lines


old, old_lines = gathered(files(before))
new, new_lines = gathered(files(after))
for kind in old:
    stayed = [n for n in new[kind] if old[kind].get(n) == new[kind][n]]
    changed = sorted(n for n in new[kind] if n in old[kind] and old[kind][n] != new[kind][n])
    came = sorted(set(new[kind]) - set(old[kind]))
    went = sorted(set(old[kind]) - set(new[kind]))
    print(f'{kind}: {len(stayed)} stayed, {len(changed)} changed, {len(came)} came, {len(went)} went')
    for word, names in (('changed', changed), ('came', came), ('went', went)):
        for name in names:
            print(f'  {word}: {name}')
print('lines (blank ones left out): ' + ', '.join(f'{k} {old_lines[k]} before, {new_lines[k]} after' for k in old_lines))
