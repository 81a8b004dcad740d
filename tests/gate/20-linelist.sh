#!/usr/bin/env bash
# linelist as a new user would try it: the example log, by name and from standard input; no octets, one octet, and logs longer than
# one read; octets that come one at a time; what it says of wrong arguments, and of a file, an input and an output that fail.
set -eu -o pipefail
export LC_ALL=C
linelist=${PROGRAMS:-target/bin}/linelist
compare=target/compare/release/compare
dir=$(mktemp -d)
trap 'rm -rf "$dir"' EXIT

# prints WHAT EXPECTED: the printed words in $dir/out are those expected
prints() {
    printf '%s\n' "$2" | diff - "$dir/out" || { echo "linelist: $1" >&2; exit 1; }
}

$linelist < examples/reading.log > "$dir/out"
diff examples/reading.expected "$dir/out"
$linelist examples/reading.log > "$dir/out" < /dev/null
diff examples/reading.expected "$dir/out"
$linelist - < examples/reading.log > "$dir/out"
diff examples/reading.expected "$dir/out"
$linelist < /dev/null > "$dir/out"
prints "no octets" "log refused 11"
printf '\x56' | $linelist > "$dir/out"
prints "one octet" "log refused 11"

# Longer than one read.
{ printf '\x56\x02\x00'; head -c 65534 /dev/zero; } | $linelist | tail -n 1 > "$dir/out"
prints "65,537 octets" "end 0 sound 0 missing 1337 refused"
python3 tests/long_log.py 3000000 > "$dir/long"
$linelist "$dir/long" > "$dir/out"
$compare list < "$dir/long" | cmp - "$dir/out"
tail -n 1 "$dir/out" > "$dir/end"
echo 'end 61104 sound 300 missing 120 refused' | diff - "$dir/end"

# One octet at a time, and in uneven pieces.
python3 - << 'PYTHON' | $linelist > "$dir/out"
import sys
with open('examples/reading.log', 'rb') as log:
    for octet in log.read():
        sys.stdout.buffer.write(bytes([octet]))
        sys.stdout.flush()
PYTHON
diff examples/reading.expected "$dir/out"
head -c 70000 "$dir/long" > "$dir/short"
$linelist "$dir/short" > "$dir/expected"
{ head -c 2; sleep 0.05; head -c 60; sleep 0.05; head -c 49; sleep 0.05; cat; } < "$dir/short" | $linelist > "$dir/out"
diff "$dir/expected" "$dir/out"

# What it says.
usage='usage: linelist [FILE]'
for words in -h --help "-x" "$dir/long $dir/long"; do
    # shellcheck disable=SC2086 # two words are two arguments
    $linelist $words 2> "$dir/out" > "$dir/nothing" < /dev/null
    prints "arguments: $words" "$usage"
    [ ! -s "$dir/nothing" ]
done
python3 - "$linelist" > "$dir/out" << 'PYTHON'
import os, pty, subprocess, sys
ours, theirs = pty.openpty()
ran = subprocess.run([sys.argv[1]], stdin=theirs, stdout=subprocess.PIPE, stderr=subprocess.PIPE)
assert ran.stdout == b''
sys.stdout.write(ran.stderr.decode())
PYTHON
prints "a terminal" "$usage"
$linelist "$dir/night.log" 2> "$dir/out" > /dev/null
prints "a file that isn't there" "linelist: $dir/night.log: No such file or directory"
$linelist "$dir" 2> "$dir/out" > /dev/null
prints "a directory" "linelist: $dir: Is a directory"
$linelist 2> "$dir/out" <&-
prints "no standard input" "linelist: standard input: Bad file descriptor"
$linelist < examples/reading.log 2> "$dir/out" > /dev/full
prints "a full device" "linelist: standard output: No space left on device"
echo "linelist: tried as a new user would"
