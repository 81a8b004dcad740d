#!/usr/bin/env bash
# sheet as a cataloguer would try it: the vectors of request 3, by files and by lengths on standard input, each table opened by
# Python's csv; octets that come in uneven pieces, 4,096 logs and one more, lengths that are none, wrong arguments, files and devices.
set -eu -o pipefail
export LC_ALL=C
sheet=${PROGRAMS:-target/bin}/sheet
dir=$(mktemp -d)
trap 'rm -rf "$dir"' EXIT
names='log,sound,missing,refused 8,refused 9,refused 15,refused 20,marked 0,marked 1,marked 2,missing per million'

# prints WHAT LINE..: the printed lines in $dir/out are those expected
prints() {
    what=$1
    shift
    printf '%s\n' "$@" | diff - "$dir/out" || { echo "sheet: $what" >&2; exit 1; }
}

python3 - "$sheet" tests/vectors/sheet.txt "$dir" << 'PYTHON'
import csv, io, os, subprocess, sys
program, vectors, folder = sys.argv[1:]
names = ['log', 'sound', 'missing', 'refused 8', 'refused 9', 'refused 15', 'refused 20', 'marked 0', 'marked 1', 'marked 2',
         'missing per million']
def told(words, given):
    out = subprocess.run([program] + words, input=given, capture_output=True, check=True).stdout.decode('ascii')
    if not out.endswith('\n') or '\r' in out:
        sys.exit(f'sheet: lines of {out!r}')
    return list(csv.reader(io.StringIO(out), strict=True))
count = 0
for line in open(vectors, encoding='ascii'):
    given, _, answer = line.strip().partition(' => ')
    words = given.split()
    if not words or words[0] != 'sheet':
        continue
    octets = b'' if words[1] == '-' else bytes.fromhex(words[1])
    lengths = [] if words[2] == '-' else [int(word) for word in words[2].split(',')]
    refusal, rows, totals = answer.split()
    if refusal != '0':
        continue
    numbers = [] if rows == '-' else rows.split(',')
    expected = [names]
    expected += [[str(i)] + numbers[10 * i:10 * i + 10] for i in range(len(lengths))]
    expected.append(['all'] + totals.split(','))
    logs, at = [], 0
    for length in lengths:
        logs.append(octets[at:at + length])
        at += length
    if told([], b''.join(b'%d\n' % len(log) + log for log in logs)) != expected:
        sys.exit(f'sheet: on standard input: {line.strip()}')
    if logs:
        files = []
        for i, log in enumerate(logs):
            files.append(os.path.join(folder, f'{i}.log'))
            with open(files[-1], 'wb') as out:
                out.write(log)
        if told(files, b'') != expected:
            sys.exit(f'sheet: files: {line.strip()}')
    count += 1
if count < 24:
    sys.exit(f'sheet: only {count} vectors')
PYTHON

# No input, and a log of no octets.
$sheet < /dev/null > "$dir/out"
prints "no input" "$names" 'all,0,0,0,0,0,0,0,0,0,0'
printf '0\n' | $sheet - > "$dir/out" 2> "$dir/err"
prints "a log of no octets" "$names" '0,0,0,0,0,0,0,0,0,0,0' 'all,0,0,0,0,0,0,0,0,0,0'

$sheet examples/reading.log > "$dir/out" 2> "$dir/err"
prints "the table of README.md" "$names" '0,5,7,1,1,0,0,60,0,84,583333' 'all,5,7,1,1,0,0,60,0,84,583333'

# Octets that come in uneven pieces, and a log longer than one read. 02 hex has no overhead: a cell of one channel has 48 samples.
{ printf '\x02\x01\x00'; head -c $((49 * 4000)) /dev/zero; } > "$dir/long"
{ wc -c < "$dir/long"; cat "$dir/long"; printf '0000000003\n\x02\x01\x00'; } > "$dir/two"
{ head -c 3; sleep 0.05; head -c 70; sleep 0.05; cat; } < "$dir/two" | $sheet > "$dir/out"
prints "uneven pieces" "$names" '0,4000,0,0,0,0,0,192000,0,0,0' '1,0,0,0,0,0,0,0,0,0,0' 'all,4000,0,0,0,0,0,192000,0,0,0'
$sheet "$dir/long" "$dir/long" > "$dir/out"
prints "two files" "$names" '0,4000,0,0,0,0,0,192000,0,0,0' '1,4000,0,0,0,0,0,192000,0,0,0' 'all,8000,0,0,0,0,0,384000,0,0,0'
$sheet - "$dir/long" < "$dir/long" > "$dir/out"
prints "a file and standard input" "$names" '0,4000,0,0,0,0,0,192000,0,0,0' '1,4000,0,0,0,0,0,192000,0,0,0' \
    'all,8000,0,0,0,0,0,384000,0,0,0'

# 4,096 logs are taken; anything behind them is 18, whatever it is.
seq 4096 | sed 's/.*/0/' > "$dir/most"
$sheet < "$dir/most" > "$dir/out" 2> "$dir/err"
[ "$(wc -l < "$dir/out")" = 4098 ]
[ "$(sed -n 4097p "$dir/out")" = '4095,0,0,0,0,0,0,0,0,0,0' ]
{ cat "$dir/most"; printf 'x'; } | $sheet > "$dir/out" 2> "$dir/err"
prints "4,097 logs" 'sheet refused 18'

xargs -n 4097 $sheet < <(yes /dev/null | head -n 4097) > "$dir/out"
prints "4,097 files" 'sheet refused 18'

# 5: no length, too long a one, and an input that ends early.
for given in '\n' 'x\n' ' 3\nabc' '-1\n' '3' '3\nab' '4294967296\n' '00000000001\n' '3\nabcd' '+0\n' '0\r\n'; do
    # shellcheck disable=SC2059 # the words are a format
    printf -- "$given" | $sheet > "$dir/out" 2> "$dir/err"
    prints "length $given" 'sheet refused 5'
done
printf '4294967295\n\x02\x01\x00' | $sheet > "$dir/out"
prints "the longest length" 'sheet refused 5'

# What it says.
$sheet --help 2> "$dir/out" > "$dir/nothing" < /dev/null
prints "--help" 'usage: sheet [FILE..]'
[ ! -s "$dir/nothing" ]
$sheet "$dir/long" "$dir/none" 2> "$dir/out" > "$dir/nothing" < /dev/null
prints "no such file" "sheet: $dir/none: No such file or directory"
[ ! -s "$dir/nothing" ]
$sheet "$dir/long" "$dir" 2> "$dir/out" > "$dir/nothing" < /dev/null
prints "a folder" "sheet: $dir: Is a directory"
[ ! -s "$dir/nothing" ]
$sheet "$dir/long" -x 2> "$dir/out" > "$dir/nothing" < /dev/null
prints "an option among files" 'usage: sheet [FILE..]'
[ ! -s "$dir/nothing" ]
$sheet "$dir/long" 2> "$dir/out" > /dev/full
prints "a full disk" 'sheet: standard output: No space left on device'
python3 - "$sheet" > "$dir/out" << 'PYTHON'
import pty, subprocess, sys
ours, theirs = pty.openpty()
ran = subprocess.run([sys.argv[1]], stdin=theirs, stdout=subprocess.PIPE, stderr=subprocess.PIPE)
assert ran.stdout == b''
sys.stdout.write(ran.stderr.decode())
PYTHON
prints "a terminal" 'usage: sheet [FILE..]'
echo "sheet: tried as a cataloguer would"
