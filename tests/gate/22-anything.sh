#!/usr/bin/env bash
# anything as a new user would try it: the vectors of request 7, the story of the archive, a log longer than one read, octets that
# come one at a time, that it stops reading at the yes, and what it says of wrong arguments and of a file that isn't there.
set -eu -o pipefail
export LC_ALL=C
anything=${PROGRAMS:-target/bin}/anything
dir=$(mktemp -d)
trap 'rm -rf "$dir"' EXIT

# prints WHAT EXPECTED: the printed words in $dir/out are those expected
prints() {
    printf '%s\n' "$2" | diff - "$dir/out" || { echo "anything: $1" >&2; exit 1; }
}

python3 - "$anything" tests/vectors/anything.txt << 'PYTHON'
import subprocess, sys
count = 0
for line in open(sys.argv[2], encoding='ascii'):
    given, _, answer = line.strip().partition(' => ')
    words = given.split()
    if not words or words[0] != 'anything':
        continue
    log = bytes.fromhex(words[1]) if len(words) > 1 and words[1] != '-' else b''
    refusal, yes, number = (int(word) for word in answer.split())
    expected = f'log refused {refusal}\n' if refusal else f"{'yes' if yes else 'no'} {number}\n"
    told = subprocess.run([sys.argv[1]], input=log, capture_output=True, check=True).stdout.decode('ascii')
    if told != expected:
        sys.exit(f'anything: {line.strip()}: told {told!r}')
    count += 1
if count < 100:
    sys.exit(f'anything: only {count} vectors')
PYTHON

# The archive: 4,000 copies of one silent cell, and one sound cell among them with one sample of 1. 02 hex has no overhead.
silent() { head -c $((49 * $1)) /dev/zero; }
sound() { printf '\0\0\001'; head -c 46 /dev/zero; }
{ printf '\x02\x01\x00'; silent 4000; } > "$dir/silent"
$anything "$dir/silent" > "$dir/out"
prints "4,000 silent cells" "no 4000"
{ printf '\x02\x01\x00'; silent 3000; sound; silent 1000; } > "$dir/sound"
$anything "$dir/sound" > "$dir/out"
prints "one sound cell among them" "yes 3000"
{ head -c 2; sleep 0.05; head -c 60; sleep 0.05; cat; } < "$dir/sound" | $anything - > "$dir/out"
prints "uneven pieces" "yes 3000"
$anything < /dev/null > "$dir/out" 2> /dev/null
prints "no octets" "log refused 11"

# Behind a yes it doesn't read on: the writer at the other end of the pipe is ended by SIGPIPE, and `anything` ends well.
set +e
{ printf '\x02\x01\x00'; sound; exec head -c 50000000 /dev/zero; } 2> /dev/null | timeout 60 "$anything" > "$dir/out"
ended="${PIPESTATUS[*]}"
set -e
prints "stops at the yes" "yes 0"
[ "$ended" = '141 0' ] || { echo "anything: behind its yes the writer and it ended with $ended" >&2; exit 1; }

# What it says.
$anything --help 2> "$dir/out" > "$dir/nothing" < /dev/null
prints "--help" 'usage: anything [FILE]'
[ ! -s "$dir/nothing" ]
$anything "$dir/none" 2> "$dir/out" > "$dir/nothing" < /dev/null
prints "no such file" "anything: $dir/none: No such file or directory"
[ ! -s "$dir/nothing" ]
