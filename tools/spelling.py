#!/usr/bin/env python3
"""Brings the repository's own definitions and lemmas to snake case, once, after /opt/rattle/port/port.py (docs/PORT.md).

  python3 tools/spelling.py           at the top of the repository: rewrites crates/, and writes docs/port-names.tsv: old name, new name
  python3 tools/spelling.py texts     the same names in the pages, the edits of tests/ and must-fail/, and the tools

A name of our own is one that a file of specs/ or proofs/ defines: a definition, a lemma, a field, a constructor, or a name that it
binds. A name that a file takes from the kit is left as it is. Functions, strings, exported names, inputs and outputs are not touched.
"""
import os
import re
import sys

HEAD = re.compile(r'^(?:(?:abbrev|unfoldable|pub|axiom) )*([^\s(){}\[\],;.«»]+) :(?: |$)')
FIELD = re.compile(r'^ +(?:pub )?([^\s(){}\[\],;.«»]+) :(?: |$)')
GOAL = re.compile(r' : tie\.Need-')
KIT = re.compile(r'^(?:pub |ghost )*use ((?:Rattle\.(?:std|core|os|io|libc|std_\w+)|native|lib|mathlib|borrow|denote|contract|prog|Prim|seplogic|logic|mir|row|place)\b[^{;\n]*)(?:\{([^}]*)\})?', re.M)
TOKEN = re.compile(r"[^\s(){}\[\],;.«»λ:|\"`]+")
CAMEL = re.compile(r"[a-z][a-z0-9']+(?:[A-Z][a-z0-9']*)+")
# what the port's own script respelled: the line of its report that begins so
REPORT = '/tmp/port-said/upgrade.txt'
NAMES = 'docs/port-names.tsv'


def texts(*endings):
    for folder, dirs, files in os.walk('crates'):
        dirs[:] = sorted(d for d in dirs if d != 'out')
        for name in sorted(files):
            if name.endswith(endings):
                yield os.path.join(folder, name)


def read(path):
    with open(path, encoding='utf-8') as file:
        return file.read()


def snake(name):
    if not re.match(r"[a-z]", name) or not re.fullmatch(r"[A-Za-z0-9_'\-]+", name):
        return name
    name = re.sub(r'getD', 'get_or', name)
    name = re.sub(r'(?<=[a-z0-9\'])(?=[A-Z])', '_', name)
    name = re.sub(r'(?<=[A-Z])(?=[A-Z][a-z])', '_', name)
    return name.replace('-', '_').lower()


def own_names():
    own, kit = set(), set()
    for path in texts('.antt', '.rt'):
        text = read(path)
        for it in KIT.finditer(text):
            for word in (it[2] or '').replace('\n', ' ').split(','):
                kit.update(word.replace(' as ', ' ').split())
        if path.endswith('.rt'):
            continue
        for line in text.split('\n'):
            it = HEAD.match(line)
            if it and not GOAL.search(line) and not it[1].endswith('-spec'):
                own.add(it[1])
            elif (it := FIELD.match(line)) and not path.endswith('Proof.antt'):
                own.add(it[1])
            own.update(word for word in TOKEN.findall(re.split(r'(?:^|\s)--(?:\s|$)', line)[0]) if CAMEL.fullmatch(word))
    return own - kit, kit


def rust_names():
    """Fields, parameters, locals and constants of the code: a clause may read them."""
    found = set()
    for path in texts('.rt'):
        for line in read(path).split('\n'):
            code = line.split('//')[0]
            found.update(re.findall(r'\b([a-z]\w*): (?!:)', code))
            found.update(re.findall(r'\blet (?:mut )?([a-z]\w*)', code))
    return found


def fields():
    found = {it[1] for path in texts('.antt') if not path.endswith('Proof.antt') for line in read(path).split('\n')
             if (it := re.match(r'^ +pub ([^\s(){}\[\],;.«»]+) :', line))}
    return found | {name for path in texts('.antt') for name in re.findall(r"[\w')]\.([a-z][\w']*)", read(path)) if CAMEL.fullmatch(name)}


def respelled():
    own, kit = own_names()
    names = {name: snake(name) for name in sorted(own) if snake(name) != name}
    taken = (own | kit) - set(names)
    code = rust_names()
    inner = fields()
    for old, new in sorted(names.items(), key=lambda it: ('-' in it[0], it[0])):
        if old not in inner and (new in code or new in inner):
            new += '_lem' if '-' in old or new.endswith('_of') else '_of'
        while new in taken:
            new += '_lem'
        if new != snake(old):
            print(f'fall together: {old} -> {new}')
        names[old] = new
        taken.add(new)
    return names


def turned(names, text, dashes):
    def one(it):
        word = it[0]
        if word in names and (dashes or '-' not in word):
            return names[word]
        return word
    return TOKEN.sub(one, text)


def turn_antt(names, text):
    out = []
    for line in text.split('\n'):
        code, mark, comment = line, '', ''
        at = re.search(r'(?:^|\s)--(?:\s|$)', line)
        if at:
            code, comment = line[:at.start()], line[at.start():]
        comment = re.sub(r'`([^`]*)`', lambda it: '`' + turned(names, it[1], True) + '`', comment)
        out.append(turned(names, code, True) + mark + turned(names, comment, False))
    return '\n'.join(out)


def turn_rt(names, text):
    out = []
    for line in text.split('\n'):
        if '"' in line and not line.lstrip().startswith('//'):
            out.append(line)
        else:
            out.append(turned(names, line, line.startswith('ghost use ')))
    return '\n'.join(out)


def clashes(names, path, text):
    """New names that the file has already, for something else."""
    words = set(TOKEN.findall(text))
    for old, new in names.items():
        if old in words and new in words:
            print(f'look: {path}: {old} becomes {new}, which stands there already')


def write(path, text):
    with open(path, 'w', encoding='utf-8') as file:
        file.write(text)


def crate_log():
    """The kit has a library `log`, so the crate `log` is `cell_log` now."""
    os.rename('crates/log', 'crates/cell_log')
    for path in texts('.antt', '.rt'):
        text = read(path)
        new = text.replace('Rattle.log.', 'Rattle.cell_log.')
        if path.endswith('.rt'):
            new = re.sub(r'(?<![\w:])log::', 'cell_log::', new)
        if new != text:
            write(path, new)
    text = read('crates.txt')
    write('crates.txt', re.sub(r'(?<![\w#])log(?![\w])(?=[: \n])', 'cell_log', text))


def crates():
    crate_log()
    names = respelled()
    for path in texts('.antt'):
        text = read(path)
        clashes(names, path, text)
        write(path, turn_antt(names, text))
    for path in texts('.rt'):
        text = read(path)
        clashes(names, path, text)
        write(path, turn_rt(names, text))
    by_port = {}
    if os.path.exists(REPORT):
        for line in read(REPORT).split('\n'):
            if 'in snake case now: ' in line:
                for name in line.split('in snake case now: ')[1].split('. Your other')[0].split(','):
                    by_port[name.strip()] = snake(name.strip())
    with open(NAMES, 'w', encoding='utf-8') as file:
        for old, new in sorted((by_port | names).items()):
            file.write(f'{old}\t{new}\n')
    print(f'{len(names)} names respelled here, {len(by_port)} by the port')


def pages():
    for place in ('tests/mutants', 'tests/edits'):
        if os.path.isdir(f'{place}/log'):
            os.rename(f'{place}/log', f'{place}/cell_log')
    names = dict(line.split('\t') for line in read(NAMES).split('\n') if line)
    places = [os.path.join(folder, name) for top in ('docs', 'tests', 'tools', 'wip', 'crates') for folder, _, files in os.walk(top)
              for name in files if '/out' not in folder and name not in ('spelling.py', 'PORT.md', 'port-names.tsv')
              and (name.endswith('.md') or name.endswith('.edit') or top == 'wip' or (top == 'tests' and name.endswith('.antt')))]
    for path in sorted(places + ['README.md', 'CONTRIBUTING.md']):
        text = read(path)
        if path.endswith('.md'):
            new = re.sub(r'`([^`\n]*)`', lambda it: '`' + turned(names, it[1], True) + '`', turned(names, text, False))
        else:
            new = turned(names, text, '.antt' in text)
        if new != text:
            write(path, new)


if sys.argv[1:] == ['texts']:
    pages()
elif not sys.argv[1:]:
    crates()
else:
    sys.exit(__doc__)
