#!/usr/bin/env python3
"""What the pages name is there: paths, make targets, crates, functions, calls, refusal numbers, options, subcommands, man pages
and chapters, in README.md, CONTRIBUTING.md, docs/ (LANDINGS.md, PORT.md and DESIGN-PASS.md there are history and are left out), the man
pages, `make help` and every --help. tests/gate/05-promises.sh asks more of docs/PROMISES.md.

usage: docs.py             looks at every page
       docs.py --planted   and plants a name of each kind that isn't there, and sees that each is noticed
"""
import functools
import pathlib
import re
import subprocess
import sys

HERE = pathlib.Path(__file__).resolve().parent.parent
DESK = 'target/desk/rimesatchel'
SKIPPED = {'target', 'out', '.git', '__pycache__', 'vectors'}
# Words that stand for any name.
ANY = re.compile(r'\b(?:NAME|FILE|File|FUNCTION|CRATE|CRATES|PROGRAM|MACHINE|VERSION|COMMIT|X|N|K)\b|(?<=^crates/)crate\b')
# Words of the standards and of other tools, and a file that the toolchain writes.
OTHERS = {'pcmAudioEncap', 'pydoc'}
OTHER_FILES = {'Lts.antt'}
NOT_OUR_PAGES = {'sha256sum', 'sox', 'soxi', 'sndfile-info', 'audacity', 'parallel', 'editcap'}
NOT_OURS = ('cargo', 'pip', 'gcc', 'git', 'parallel', 'pkg-config', 'apt-get', 'sox', 'valgrind', 'for', 'export', 'tshark', 'editcap')


@functools.cache
def run(*words):
    return subprocess.run(words, cwd=HERE, capture_output=True, text=True, stdin=subprocess.DEVNULL).stdout


@functools.cache
def rt_help():
    """What rt says of itself, and the page that it names first."""
    ran = subprocess.run(['rt', 'help'], cwd=HERE, capture_output=True, text=True, stdin=subprocess.DEVNULL)
    return ran.stdout + ran.stderr + pathlib.Path(run('rt', 'doc').strip()).read_text(encoding='utf-8')


@functools.cache
def rt_commands():
    named = re.findall(r'^(?: *|usage: |.* · )rt ([a-z-]+(?:\|[a-z-]+)*)(?= |$)', rt_help(), re.M)
    return {word for words in named for word in words.split('|')}


@functools.cache
def tree():
    """Every file and folder of the repository."""
    found = []
    for path in HERE.rglob('*'):
        parts = path.relative_to(HERE).parts
        if not SKIPPED & set(parts[:-1]) and (parts[-1] not in SKIPPED or parts[-1] == 'vectors'):
            found.append('/'.join(parts))
    return found


@functools.cache
def text_of(pattern):
    """The files whose names fit, in one text, but this one: it has the names that are planted."""
    fitting = [HERE / name for name in tree() if re.fullmatch(pattern, name) and name != 'tests/docs.py']
    return '\n'.join(path.read_text(encoding='utf-8', errors='replace') for path in fitting if path.is_file())


@functools.cache
def words():
    """Every word of the code, of the proofs, of file names, and of the toolchain's guides."""
    text = text_of(r'(?!docs/|man/)(?!.*\.(?:md|1|png|svg|log)$).*') + '\n'.join(tree())
    kit = pathlib.Path(run('rt', 'doc').strip()).parent
    guides = [*kit.glob('*.md'), *kit.glob('rattle/*.md')]
    text += ''.join(path.read_text(encoding='utf-8', errors='replace') for path in guides) + rt_help()
    whole = set(re.findall(r"[\w\-']+", text))
    return whole | {part for word in whole for part in re.split(r"[-']", word)} | OTHERS


@functools.cache
def crates():
    return {path.name for path in (HERE / 'crates').iterdir() if path.is_dir()}


@functools.cache
def targets():
    rules = text_of(r'Makefile|.*\.mk')
    named = {word for line in re.findall(r'^\.PHONY: (.*)', rules, re.M) for word in line.split()}
    return named | set(re.findall(r'^([a-z][\w-]*):', rules, re.M))


@functools.cache
def headers():
    return text_of(r'include/.*\.h|bindings/words\.c')


@functools.cache
def calls():
    """The calls that the headers declare, and the library that bears such a name."""
    return set(re.findall(r'\b(rime_\w+)\(', re.sub(r'/\*.*?\*/', '', headers(), flags=re.S))) | {'rime_management'}


@functools.cache
def laws():
    """The laws of crates/ whose names begin as those of calls do."""
    return set(re.findall(r'^(?:pub |abbrev |unfoldable )*(rime_\w+) :', text_of(r'crates/.*\.antt'), re.M))


@functools.cache
def refusals():
    return {int(number) for number in re.findall(r'\bRIME_\w+ = (\d+)', ''.join(
        block for block in re.findall(r'/\* Refusal numbers\.[^*]*\*/\s*enum \{(.*?)\};', headers(), re.S)))}


@functools.cache
def desk_help():
    """The help of the desk tool, and that of each subcommand by its name."""
    whole = run(DESK, '--help')
    names = re.findall(r'^  ([a-z]+) [\[A-Z]', whole, re.M)
    return {'': whole} | {name: run(DESK, name, '--help') for name in names}


@functools.cache
def program_help():
    """The help of each program that has a man page and is built."""
    names = [path.stem for path in sorted((HERE / 'man').glob('*.1')) if (HERE / 'target' / 'bin' / path.stem).exists()]
    return {name: run(f'target/bin/{name}', '--help') for name in names}


def options(text):
    return set(re.findall(r'(?<![\w-])--[a-z][a-z-]*', text))


def pages():
    """Each page's name and text. In man pages the escapes of roff are taken away."""
    found = {}
    for name in tree():
        if re.fullmatch(r'README\.md|CONTRIBUTING\.md|docs/.*\.md', name) and name not in (
            'docs/LANDINGS.md', 'docs/PORT.md', 'docs/DESIGN-PASS.md'):
            found[name] = (HERE / name).read_text(encoding='utf-8')
        elif re.fullmatch(r'(?:man|desk)/.*\.1', name):
            text = re.sub(r'\\f.|\\&', '', (HERE / name).read_text(encoding='utf-8')).replace('\\-', '-')
            text = re.sub(r'^\.BR ([\w-]+) \((\d)\)', r'\1(\2)', text, flags=re.M)
            found[name] = re.sub(r'^\.(?:B|BR|I|IR|RI|RB|IB|BI) ', '', text, flags=re.M)
    found['make help'] = re.sub(r'^  (?=make )', '    ', run('make', 'help'), flags=re.M)
    found |= {f'rimesatchel {name} --help': text for name, text in desk_help().items()}
    return found | {f'{name} --help': text for name, text in program_help().items()}


@functools.cache
def quoted(text):
    """What stands in backquotes."""
    return [re.sub(r'\s+', ' ', span) for span in re.findall(r'`([^`]+)`', re.sub(r'^    .*', '', text, flags=re.M))]


def spans(text):
    """What stands in backquotes, and the commands of sessions, without a remark behind them."""
    lines = re.findall(r'^    (?:\$ |(?=(?:make|rt|bash|python3|rimesatchel) ))(.*)', text, re.M)
    return quoted(text) + [line.split(' #')[0] for line in lines]


def there(path):
    """Whether something fits a path with words that stand for any name."""
    pattern = re.escape(ANY.sub('*', path).rstrip('/')).replace(r'\*', '[^/]*')
    return any(re.fullmatch(pattern, name) for name in tree())


def wrong_paths(text):
    tops = {name.split('/')[0] for name in tree() if '/' in name}
    for path in re.findall(r'(?<![\w/$~.<>*{}-])((?:\.?[\w-]+/)[\w./*-]*)', text):
        path = path.rstrip('.,')
        top = path.split('/')[0]
        if top in tops and not there(path):
            yield f'{path} is not there'
        elif top == 'target' and len(path.split('/')) > 1 and not built(path, text):
            yield f'{path} is built by nothing'
        elif top in crates() - tops:
            file = path.split('/')[1]
            if re.fullmatch(r'[A-Z]\w*', file) and not re.search(rf'^crates/{top}/.*\b{file}\.antt$', '\n'.join(tree()), re.M):
                yield f'{path} is not there'
    names = {name.split('/')[-1] for name in tree()} | OTHER_FILES
    for name in re.findall(r'(?<![\w/.*-])(?!IN|OUT)[\w-]+\.(?:md|rt|antt|py|sh|mk|rs|toml|edit|h|c)\b(?![\w/])', text):
        if name not in names and not ANY.search(name):
            yield f'{name} is no file'


@functools.cache
def builders():
    return text_of(r'Makefile|.*\.mk|\.ci/.*|(?:tools|bench|desk|tests)/.*\.(?:py|sh)') + rt_help()


def built(path, text):
    """A rule or a script writes it or into its folder, or a command of the page itself does."""
    folder = '/'.join(path.split('/')[:2])
    return folder in builders() or f'-o {path}' in text or f'-o {folder}' in text or re.search(rf'--target-dir {folder}', text)


def wrong_commands(text):
    for span in spans(text):
        for part in re.split(r'[|;&()]+', span):
            made = re.match(r'\s*make((?: [A-Z]\w*=\S*| [a-z][\w-]*)*)', part)
            for word in made[1].split() if made else []:
                if '=' in word and f'$({word.split("=")[0]})' not in text_of(r'Makefile|.*\.mk'):
                    yield f'make {word}: there is no such variable'
                elif '=' not in word and word not in targets():
                    yield f'make {word}: there is no such target'
            asked = re.match(r'\s*rt ([a-z][\w-]*)', part)
            if asked and asked[1] not in rt_commands():
                yield f'rt {asked[1]}: there is no such command'


def wrong_options(text):
    """An option belongs to the command in front of it; one that stands alone is the desk tool's, rt's or a script's."""
    helps = ''.join([*desk_help().values(), *program_help().values()])
    ours = options(helps + rt_help() + text_of(r'(?:tools|bench|tests)/.*\.py'))
    for span in spans(text):
        used = re.match(r'(?:.*/)?rimesatchel ([a-z]+)', span)
        program = re.match(r'(?:[^ ]*/)?([a-z]+) ', span)
        if used and used[1] not in desk_help():
            yield f'rimesatchel {used[1]}: there is no such subcommand'
        elif used:
            for option in options(span) - options(desk_help()[used[1]]):
                yield f'rimesatchel {used[1]} {option}: there is no such option'
        elif program and program[1] in program_help():
            for option in options(span) - options(program_help()[program[1]]) - {'--help'}:
                yield f'{program[1]} {option}: there is no such option'
        elif not span.startswith(NOT_OURS):
            for option in options(span) - ours:
                yield f'{option}: there is no such option'
    plain = re.sub(r'`[^`]*`|^    .*', '', text, flags=re.M)
    for option in options(plain) - ours:
        yield f'{option}: there is no such option'


def wrong_names(text):
    for call in set(re.findall(r'\brime_\w+', text)) - calls() - laws():
        yield f'{call}: there is no such call'
    for name in set(re.findall(r'\bRIME\w*_\w+', text)):
        if not re.search(rf'\b{name}\b', headers() + text_of(r'Makefile|.*\.mk|bindings/rust/build\.rs')):
            yield f'{name}: there is no such constant or variable'
    for span in quoted(text):
        for crate, function in re.findall(r'(?<![\w:])(\w+)::((?:\w+::)*\w+)', span):
            where = text_of(rf'crates/{crate}/src/.*|bindings/rust/src/.*') if crate in crates() else ''
            if where and not re.search(rf'\b(?:fn|struct|enum|mod|const|type) {function.split("::")[-1]}\b', where):
                yield f'{crate}::{function}: there is no such function'
        if not span.startswith(NOT_OURS) and not ANY.search(span):
            for word in re.findall(r"[\w\-']+", span):
                if word not in words() and word.strip("-'") not in words() and not word.isdigit():
                    yield f'`{span}`: {word} stands nowhere in the code'


NUMBERS = r'(?:\d+(?:, (?:and |or )?| and | or | to ))*\d+'


def wrong_numbers(text):
    for numbers in re.findall(rf'[Rr]efus(?:ed|als?|es)(?: by)?(?: number)? ({NUMBERS})(?![\d,.]*\d)', text):
        for number in map(int, re.findall(r'\d+', numbers)):
            if number not in refusals():
                yield f'refusal {number}: there is none'
    for page, section in re.findall(r'(README|docs/[A-Z]+)(?:\.md)?, "([^"]+)"', re.sub(r'\s+', ' ', text)):
        if not re.search(rf'^#+ (?:\d+\. )?{re.escape(section)}', (HERE / f'{page}.md').read_text(encoding='utf-8'), re.M):
            yield f'{page}.md has no section "{section}"'
    chapters = set(re.findall(r'^## (\d+)\. ', (HERE / 'docs/RULES.md').read_text(encoding='utf-8'), re.M))
    for named in re.findall(rf'docs/RULES\.md,? chapters? ({NUMBERS})', re.sub(r'\s+', ' ', text)):
        for number in set(re.findall(r'\d+', named)) - chapters:
            yield f'docs/RULES.md has no chapter {number}'
    for name in set(re.findall(r'(?<![\w-])([\w-]+)\(1\)', text)) - NOT_OUR_PAGES:
        if not there(f'man/{name}.1') and not there(f'desk/{name}.1'):
            yield f'{name}(1): there is no such man page'


def wrong_rooms(text):
    """README's table has a row for each crate, and no other."""
    rows = set(re.findall(r'^\| `(\w+)` \|', text.split('## The rooms')[1].split('| elsewhere |')[0], re.M))
    for crate in sorted(rows ^ crates()):
        yield f'the rooms: {crate} is {"no crate" if crate in rows else "missing"}'


def wrong_languages(text):
    """docs/LINKING.md has a table of the Rust and Python names."""
    rust = text_of(r'bindings/rust/src/.*')
    module = text_of(r'bindings/python/rimesatchel/__init__\.py')
    python = set(re.findall(r'"(\w+)"', module.split('__all__ = [')[1].split(']')[0]))
    for _, _, ours, theirs in re.findall(r'^\| (.*?) \| (.*?) \| (.*?) \| (.*?) \|$', text.split('## What there is')[1], re.M):
        for name in re.findall(r'`(\w+)`', ours):
            if not re.search(rf'\bpub (?:fn|struct|enum|mod) {name}\b', rust):
                yield f'{name}: not in the Rust crate'
        for name in re.findall(r'`(\w+)`', theirs):
            if name not in python:
                yield f'{name}: not in the Python module'


CHECKS = [wrong_paths, wrong_commands, wrong_options, wrong_names, wrong_numbers]


def look(name, text):
    found = [line for check in CHECKS for line in check(text)]
    if name == 'README.md':
        found += list(wrong_rooms(text))
    if name == 'docs/LINKING.md':
        found += list(wrong_languages(text))
    return found


# A sentence of each kind that names something that isn't there.
FAULTS = [
    ('README.md', 'See docs/NOSUCH.md.'), ('README.md', 'See crates/nosuch.'), ('README.md', 'It is in nosuch.py.'),
    ('README.md', 'See receiver/Nosuch.'), ('README.md', 'It writes target/nosuch/file.'), ('README.md', 'Run `make nosuch`.'),
    ('docs/DESK.md', '    make nosuch   # a remark'), ('README.md', 'Run `make install NOSUCH=1`.'),
    ('README.md', 'Run `rt nosuch`.'), ('docs/RULES.md', 'It is refused 41.'),
    ('docs/RULES.md', 'Refusals 1 to 5 and 40.'), ('docs/DESK.md', 'Use `rimesatchel nosuch in.log`.'),
    ('docs/DESK.md', 'Use `rimesatchel receive in.log out.wav --nosuch`.'),
    ('docs/DESK.md', 'Use `rimesatchel list in.log --labels x`.'), ('docs/DESK.md', 'Use --nosuch.'),
    ('README.md', 'Use `linelist --strict in.log`.'),
    ('docs/LINKING.md', 'Call rime_nosuch.'), ('docs/LINKING.md', 'RIME_NOSUCH is 1.'),
    ('docs/PROVING.md', 'By `sender::nosuch`.'), ('docs/PROVING.md', 'By `no_such_law`.'), ('man/linelist.1', 'See nosuch(1).'),
    ('docs/LINKING.md', 'See README, "No such section".'), ('docs/LINKING.md', 'See docs/RULES.md, chapter 99.'),
    ('docs/LINKING.md', '| go | `rime_send` | `Nosuch` | `Sender` |'),
    ('docs/LINKING.md', '| go | `rime_send` | `Sender` | `Nosuch` |'), ('README.md', '| `nosuch` | a crate |'),
]


def main():
    if not (HERE / DESK).exists():
        sys.exit(f'docs: {DESK} is not there: make desk')
    found = pages()
    wrong = [f'{name}: {line}' for name, text in found.items() for line in look(name, text)]
    for line in dict.fromkeys(wrong):
        print(f'docs: {line}', file=sys.stderr)
    if wrong:
        sys.exit(1)
    print(f'docs: what {len(found)} pages name is there')
    if '--planted' in sys.argv[1:]:
        for name, fault in FAULTS:
            # A row goes to where its table is; a sentence is looked at alone.
            row = re.sub(r'^(\| (?:`runs`|send) \|)', rf'{fault}\n\1', found[name], flags=re.M)
            if not (look(name, row) if fault.startswith('|') else [line for check in CHECKS for line in check(fault)]):
                sys.exit(f'docs: not noticed in {name}: {fault}')
        print(f'docs: {len(FAULTS)} planted names were noticed')


if __name__ == '__main__':
    main()
