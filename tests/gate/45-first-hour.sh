#!/usr/bin/env bash
# A user's first hour: the commands of README.md, "Use it" and "Link it", and of docs/LINKING.md are run as they stand there, in the
# unpacked tarball of `make dist`, with a home of its own and nothing else on the path; what they print is what the pages say. Then
# a C program elsewhere is built by pkg-config alone, and each rule of docs/RULES.md is cited in docs/PROMISES.md.
#
# The tarball is of the tracked files as they stand. Where there is no git, as in a tarball itself, it is a copy of the folder.
# `make demo` is run there with nothing built, so over the library without its proof; behind it comes target/ as the gate has it:
# what was proved is found there, and not proved once more.
set -eu -o pipefail
export LC_ALL=C
bash tests/need.sh pkg-config
dir=$(mktemp -d)
trap 'rm -rf "$dir"' EXIT
export CARGO_HOME=${CARGO_HOME:-$HOME/.cargo} RUSTUP_HOME=${RUSTUP_HOME:-$HOME/.rustup}
mkdir "$dir/home" "$dir/clone" "$dir/bin" "$dir/elsewhere"
if [ -e .git ] && standing=$(git -c user.name=gate -c user.email=gate@localhost stash create); then
    tarball=$(bash tools/dist.sh ${standing:-HEAD})
    (cd target/dist && sha256sum --check --quiet "${tarball##*/}.sha256")
    tar -xzf "$tarball" -C "$dir/clone" --strip-components=1
    rm "$tarball" "$tarball.sha256"
    echo "dist: ${tarball##*/}"
else
    tar --exclude=./target --exclude=./.git -cf - . | tar -xf - -C "$dir/clone"
fi
cat > "$dir/proved" << SH
mkdir -p target
for folder in bin log module obj rlib stamp staticlib x86_64; do
    [ ! -e "$PWD/target/\$folder" ] || cp -a "$PWD/target/\$folder" target/
done
touch target/bin/* target/staticlib/* # the files of a tarball may be newer than what was proved of them
SH
for program in rt cargo rustc python3; do ln -s "$(command -v "$program")" "$dir/bin/$program"; done
export HOME=$dir/home PATH=$dir/bin:/usr/bin:/bin

cat > "$dir/follow.py" << 'PYTHON'
"""Runs the commands of a page's sections: the lines that begin with `    $ `, with what they print below them."""
import pathlib
import re
import subprocess
import sys

page, proved, *wanted = sys.argv[1:]
commands, section, printed_here = [], None, False
for line in pathlib.Path(page).read_text(encoding='utf-8').split('\n'):
    if line.startswith('## '):
        section = line[3:]
    elif section in wanted and line.startswith('    $ '):
        commands.append((line[6:], []))
        printed_here = True
    elif not line.startswith('    '):
        printed_here = False
    elif printed_here:
        commands[-1][1].append(line[4:])
script = 'exec 2>&1\n'
for command, _ in commands:
    script += f'echo "@@"\n{command} || {{ echo "@@failed"; exit 1; }}\n'
    if command == 'make demo':
        script += f'[ -e target/quick/desk/rimesatchel ] && bash {proved} || exit 1\n'
ran = subprocess.run(['bash', '-c', script], stdout=subprocess.PIPE, stdin=subprocess.DEVNULL, text=True)
parts = [part.rstrip('\n').split('\n') for part in re.split(r'^@@\n', ran.stdout, flags=re.M)[1:]]
wrong = ran.returncode != 0 or len(parts) != len(commands)
for (command, expected), printed in zip(commands, parts):
    # `..` stands for any lines; a command without lines may print anything
    pattern = ''.join('(?:.*\n)*' if line == '..' else re.escape(line) + '\n' for line in expected)
    if expected and not re.fullmatch(pattern, '\n'.join(printed) + '\n'):
        print(f'{page}: {command}: printed', *printed, sep='\n  ')
        wrong = True
if wrong:
    print(ran.stdout[-3000:])
    sys.exit(1)
print(f'{page}: {len(commands)} commands print what they should')
PYTHON
(
    cd "$dir/clone"
    python3 "$dir/follow.py" README.md "$dir/proved" 'Use it' 'Link it'
    python3 "$dir/follow.py" docs/LINKING.md "$dir/proved" C Rust Python
)

# What was installed, from a folder that has nothing else.
cp examples/c/handover.c "$dir/elsewhere/"
cp examples/handover.expected examples/reading.log examples/reading.expected "$dir/elsewhere/"
cd "$dir/elsewhere"
export PKG_CONFIG_PATH=$HOME/.local/lib/pkgconfig PYTHONDONTWRITEBYTECODE=1
# shellcheck disable=SC2046 # several words
gcc -std=c99 -Wall -Wextra -Werror handover.c $(pkg-config --cflags --libs rimesatchel) -o handover
./handover > printed
diff handover.expected printed
"$HOME/.local/bin/linelist" reading.log > printed
diff reading.expected printed
version=$(pkg-config --modversion rimesatchel)
[ "$(python3 -c 'import rimesatchel; print(rimesatchel.VERSION)')" = "$version" ]
[ -x "$HOME/.local/bin/rimesatchel" ]
echo "install: a C program elsewhere is built by pkg-config alone; version $version"
cd "$OLDPWD"

python3 - << 'PYTHON'
import pathlib
import re
import sys

chapter, rules = None, set()
for line in pathlib.Path('docs/RULES.md').read_text(encoding='utf-8').split('\n'):
    if found := re.match(r'## (\d+)\. ', line):
        chapter = found[1]
    elif (found := re.match(r'(\d+)\. ', line)) and chapter:
        rules.add(f'{chapter}.{found[1]}')
text = pathlib.Path('docs/PROMISES.md').read_text(encoding='utf-8')
table = text.split('## By rule', 1)[1].split('\n## ', 1)[0]
cited = {rule for row in re.findall(r'^\| (\d[\d., ]*) \|', table, re.M) for rule in row.split(', ')}
for rule in sorted(rules ^ cited):
    print(f'docs/PROMISES.md: rule {rule} is', 'not cited' if rule in rules else 'no rule', file=sys.stderr)
if rules ^ cited or not rules:
    sys.exit(1)
print(f'docs/PROMISES.md: {len(rules)} rules are cited')
PYTHON
