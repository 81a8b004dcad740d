#!/usr/bin/env bash
# salvage as a custodian would type it: the session of README.md, word for word; then the request's vectors, a log longer than one
# read, octets that come one at a time, a new log salvaged again, and what it says of wrong arguments, files and devices.
set -eu -o pipefail
export LC_ALL=C
programs=$(realpath "${PROGRAMS:-target/bin}")
salvage=$programs/salvage
dir=$(mktemp -d)
trap 'rm -rf "$dir"' EXIT

# prints WHAT EXPECTED: the printed words in $dir/out are those expected
prints() {
    printf '%s\n' "$2" | diff - "$dir/out" || { echo "salvage: $1" >&2; exit 1; }
}

# The session of README.md: a line that begins with `$` is typed, and what stands below it is what it prints. The desk tool is in it.
make --no-print-directory -s -f desk/desk.mk desk
cp examples/reading.log "$dir/torn.log"
python3 - "$dir" "$programs" << 'PYTHON'
import os, subprocess, sys
with open('README.md', encoding='utf-8') as readme:
    section = readme.read().split('## Salvaging a log\n')[1].split('\n## ')[0]
session, typed = [line[4:] for line in section.split('\n') if line.startswith('    ')], None
expected = {}
for line in session:
    if line.startswith('$ '):
        typed = line[2:]
        expected[typed] = ''
    else:
        expected[typed] += line + '\n'
assert 'salvage < torn.log > whole.log' in expected and 'linelist < whole.log' in expected and 'cmp whole.log new.log' in expected
environment = dict(os.environ, PATH=':'.join([sys.argv[2], os.getcwd() + '/target/desk', os.environ['PATH']]))
for typed, words in expected.items():
    ran = subprocess.run(typed, shell=True, cwd=sys.argv[1], env=environment, stdout=subprocess.PIPE, stderr=subprocess.STDOUT)
    if ran.stdout.decode() != words:
        sys.exit(f'README.md says of `{typed}`:\n{words}but it prints:\n{ran.stdout.decode()}')
PYTHON

# The request's vectors: each log through the program. With room the answers are the call's; a header's fault prints only that.
python3 - "$salvage" tests/vectors/salvage.txt << 'PYTHON'
import subprocess, sys
program, vectors = sys.argv[1:]
tried = set()
for line in open(vectors, encoding='ascii'):
    given, answer = line.split(' => ')
    log, answer = given.split()[1], answer.split()
    if answer[0] == '21' or log in tried:
        continue
    tried.add(log)
    octets, left, cut = map(int, answer[3:6])
    if answer[0] == '0':
        new = bytes.fromhex(answer[1].replace('-', ''))[:octets]
        list_ = [] if answer[2] == '-' else list(map(int, answer[2].split(',')))
        pairs = zip(list_[:2 * left:2], list_[1:2 * left:2])
        notes = ''.join(f'{k} refused {r}\n' for k, r in pairs) + f'end {(octets - 3) // 49} kept {left} left out {cut} cut\n'
    else:
        new, notes = b'', f'log refused {answer[0]}\n'
    ran = subprocess.run([program], input=bytes.fromhex(log.replace('-', '')), capture_output=True)
    if (ran.stdout, ran.stderr.decode()) != (new, notes):
        sys.exit(f'salvage: {log[:60]}..: {ran.stderr.decode()} expected {notes}')
if len(tried) < 50:
    sys.exit('salvage: too few vectors')
print(f'salvage: {len(tried)} vectors')
PYTHON

# Longer than one read, and salvaged again: nothing changes, nothing is listed and nothing is cut.
python3 tests/long_log.py 3000000 > "$dir/long"
$salvage "$dir/long" > "$dir/new" 2> "$dir/out"
kept=$(tail -n 1 "$dir/out" | cut -d ' ' -f 2)
left=$(($(wc -l < "$dir/out") - 1))
cut=$(($(wc -c < "$dir/long") - $(wc -c < "$dir/new") - 49 * left))
tail -n 1 "$dir/out" > "$dir/end"
echo "end $kept kept $left left out $cut cut" | diff - "$dir/end"
[ "$(wc -c < "$dir/new")" = $((3 + 49 * kept)) ]
$salvage "$dir/new" > "$dir/again" 2> "$dir/out"
cmp "$dir/new" "$dir/again"
prints "salvaged again" "end $kept kept 0 left out 0 cut"
# What the receiver takes of the new log is what it takes of the old one.
"$programs/linelist" "$dir/long" | grep ' sound .* number ' | cut -d ' ' -f 2- > "$dir/old-sound"
"$programs/linelist" "$dir/new" | grep ' sound .* number ' | cut -d ' ' -f 2- | cmp - "$dir/old-sound"

# One octet at a time, and octets behind a fault that come in other reads.
python3 - << 'PYTHON' | $salvage > "$dir/new" 2> "$dir/out"
import sys
with open('examples/reading.log', 'rb') as log:
    for octet in log.read():
        sys.stdout.buffer.write(bytes([octet]))
        sys.stdout.flush()
PYTHON
cmp "$dir/new" "$dir/whole.log"
{ printf '\x56\x02\x00\x02'; head -c 200000 /dev/zero; } | $salvage > "$dir/new" 2> "$dir/out"
prints "a fault, and 200,000 octets behind it" "end 0 kept 0 left out 200001 cut"

# What it says.
$salvage < /dev/null > "$dir/new" 2> "$dir/out"
prints "no octets" "log refused 11"
[ ! -s "$dir/new" ]
for words in -h --help "-x" "$dir/long $dir/long"; do
    # shellcheck disable=SC2086 # two words are two arguments
    $salvage $words 2> "$dir/out" > "$dir/new" < /dev/null
    prints "arguments: $words" "usage: salvage [FILE]"
    [ ! -s "$dir/new" ]
done
$salvage "$dir/night.log" 2> "$dir/out" > /dev/null
prints "a file that isn't there" "salvage: $dir/night.log: No such file or directory"
$salvage < examples/reading.log 2> "$dir/out" > /dev/full
prints "a full device" "salvage: standard output: No space left on device"
echo "salvage: tried as a custodian would"
