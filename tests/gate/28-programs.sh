#!/usr/bin/env bash
# The loops of linelist, anything, salvage and sheet, which no promise covers: what each says of a directory, a file that it
# may not read, a closed input, a full or closed output and an input that fails in the middle; that each goes to the end of a
# long log; 1,100 files; a name that is too long; what is said of a log that isn't whole, and that nothing is said of one that
# is. 22-anything.sh tries that anything reads no further than its yes.
#
# PROGRAMS is the folder of the programs (target/bin).
set -eu -o pipefail
export LC_ALL=C
programs=${PROGRAMS:-target/bin}
dir=$(mktemp -d)
trap 'rm -rf "$dir"' EXIT
chmod 755 "$dir" # for the user nobody, below
cp "$programs"/{linelist,anything,salvage,sheet} "$dir"

fail() {
    echo "programs: $*" >&2
    exit 1
}

# said TRIAL PROGRAM WORDS..: standard error has just these lines
said() {
    local trial=$1 program=$2
    shift 2
    { [ $# = 0 ] || printf '%s\n' "$@"; } | diff - "$dir/err" >&2 || fail "$program, $trial: standard error"
}

# silent TRIAL PROGRAM: nothing is on standard output
silent() {
    [ ! -s "$dir/out" ] || fail "$2, $1: standard output isn't empty"
}

# tried PROGRAM WORD..: runs a program. One that doesn't end is ended.
tried() {
    local program=$1
    shift
    timeout 60 "$dir/$program" "$@" > "$dir/out" 2> "$dir/err" || fail "$program $*: ended with $?"
}

record() { printf '\0\0\001'; head -c 46 /dev/zero; } # a cell of 02 hex, which has no overhead, with one sample of 1
blank() { head -c $((49 * $1)) /dev/zero; }

# 5 MB, and the only sound is in the last of 102,042 records.
{ printf '\x02\x01\x00'; blank 102041; record; } > "$dir/late.log"
names='log,sound,missing,refused 8,refused 9,refused 15,refused 20,marked 0,marked 1,marked 2,missing per million'
row='102042,0,0,0,0,0,4898016,0,0,0'

# ends_well PROGRAM: what it printed of late.log is of all its records
ends_well() {
    case $1 in
        linelist)
            tail -n 1 "$dir/out" | diff <(echo 'end 102042 sound 0 missing 0 refused') - && [ "$(wc -l < "$dir/out")" = 102044 ]
            ;;
        anything) diff <(echo 'yes 102041') "$dir/out" ;;
        salvage) cmp "$dir/late.log" "$dir/out" ;;
        sheet) printf '%s\n' "$names" "0,$row" "all,$row" | diff - "$dir/out" ;;
    esac || fail "$1: a log of 5 MB"
    case $1 in
        salvage) said "a log of 5 MB" salvage 'end 102042 kept 0 left out 0 cut' ;;
        *) said "a log of 5 MB" "$1" ;;
    esac
}

# no_answer TRIAL PROGRAM: nothing says that the log ended; of linelist and salvage what came before stands
no_answer() {
    case $2 in
        linelist) ! grep -q '^end ' "$dir/out" ;;
        salvage) ! grep -q '^end ' "$dir/err" ;;
        *) [ ! -s "$dir/out" ] ;;
    esac || fail "$2, $1: it answers as of a whole log"
}

gcc -shared -fPIC -O2 -o "$dir/failing_read.so" tests/failing_read.c
mkdir "$dir/folder"
cp "$dir/late.log" "$dir/closed.log"
chmod 000 "$dir/closed.log"
as_nobody=()
[ "$(id -u)" != 0 ] || as_nobody=(setpriv --reuid=65534 --regid=65534 --clear-groups)
# A name of 4,095 octets for late.log: the longest that the system takes. With two octets more it names no file, and what is
# left of it in 4,096 octets does.
name=$dir
while [ $((${#name} + 11)) -le 4095 ]; do name=$name/.; done
while [ $((${#name} + 9)) -lt 4095 ]; do name=$name/; done
name=$name/late.log
[ ${#name} = 4095 ] || fail "a name of ${#name} octets"

for program in linelist anything salvage sheet; do
    tried $program "$dir/late.log"
    ends_well $program
    tried $program "$name"
    ends_well $program
    [ $program = sheet ] || { tried $program - < "$dir/late.log" && ends_well $program; }

    tried $program "$dir/folder"
    said "a directory" $program "$program: $dir/folder: Is a directory"
    silent "a directory" $program
    if [ ${#as_nobody[@]} = 0 ] || command -v setpriv > /dev/null; then
        "${as_nobody[@]}" "$dir/$program" "$dir/closed.log" > "$dir/out" 2> "$dir/err"
        said "an unreadable file" $program "$program: $dir/closed.log: Permission denied"
        silent "an unreadable file" $program
    else
        echo "programs: an unreadable file isn't tried: this is root, and there is no setpriv"
    fi
    timeout 60 "$dir/$program" <&- > "$dir/out" 2> "$dir/err"
    said "a closed input" $program "$program: standard input: Bad file descriptor"
    silent "a closed input" $program
    tried $program "${name}xx"
    said "a name of 4,097 octets" $program "$program: the name of the file: File name too long"
    silent "a name of 4,097 octets" $program

    timeout 60 "$dir/$program" "$dir/late.log" > /dev/full 2> "$dir/err"
    said "a full output" $program "$program: standard output: No space left on device"
    timeout 60 "$dir/$program" "$dir/late.log" >&- 2> "$dir/err"
    said "a closed output" $program "$program: standard output: Bad file descriptor"
    timeout 60 "$dir/$program" - < "$dir/late.log" >&- 2> "$dir/err"
    [ $program = sheet ] || said "a closed output, from a pipe" $program "$program: standard output: Bad file descriptor"

    for n in 1 2 5 77; do
        LD_PRELOAD=$dir/failing_read.so FAILING_READ=$n tried $program "$dir/late.log"
        grep -v ' refused ' "$dir/err" | diff <(echo "$program: $dir/late.log: Input/output error") - >&2 \
            || fail "$program, read $n fails: standard error"
        no_answer "read $n fails" $program
    done
done

# sheet: a second log that fails, logs on standard input that fail, 1,100 files where 1,024 may be open, and two long names.
LD_PRELOAD=$dir/failing_read.so FAILING_READ=80 tried sheet "$dir/late.log" "$name"
said "the second file fails" sheet "sheet: $name: Input/output error"
silent "the second file fails" sheet
{ wc -c < "$dir/late.log"; cat "$dir/late.log"; } > "$dir/after-length"
tried sheet - < "$dir/after-length"
ends_well sheet
LD_PRELOAD=$dir/failing_read.so FAILING_READ=5 tried sheet < "$dir/after-length"
said "standard input fails" sheet "sheet: standard input: Input/output error"
silent "standard input fails" sheet
{ printf '\x02\x01\x00'; record; } > "$dir/one.log"
(
    ulimit -n 1024
    seq 1100 | sed "s|.*|$dir/one.log|" > "$dir/many"
    xargs -n 1100 timeout 60 "$dir/sheet" < "$dir/many" > "$dir/out" 2> "$dir/err"
)
said "1,100 files" sheet
[ "$(tail -n 1 "$dir/out")" = 'all,1100,0,0,0,0,0,52800,0,0,0' ] || fail "sheet: 1,100 files"
tried sheet "$dir/one.log" "${name}xx"
said "the second name is too long" sheet "sheet: the name of the file: File name too long"
silent "the second name is too long" sheet

# What is said of a log that isn't whole: where it stopped and why, in the words of include/rimesatchel.h. Standard output is
# as ever.
words() { sed -n "s/^    case $1: return \"\(.*\)\";/\1/p" include/rimesatchel.h; }
printf '\x02\x01\x00\x07' > "$dir/11.log"
{ printf '\x02\x01\x00'; blank 2; printf '\x07'; blank 1; } > "$dir/later.log"
{ printf '\x02\x01\x00'; blank 70000; head -c 30 /dev/zero; } > "$dir/12.log"
printf '\x02' > "$dir/short.log"
printf '\x99\x01\x00' > "$dir/1.log"
printf '\x02\x7f\x00' > "$dir/2.log"
printf '\x02\x01\x07' > "$dir/3.log"
for log in 1 2 3; do blank 1 >> "$dir/$log.log"; done
# log, what anything prints, and what both programs say
while IFS='|' read -r log printed stopped; do
    tried anything "$dir/$log.log"
    [ "$(cat "$dir/out")" = "$printed" ] || fail "anything, $log.log: $(cat "$dir/out")"
    said "$log.log" anything "anything: $dir/$log.log: $stopped"
    tried anything < "$dir/$log.log"
    said "$log.log on standard input" anything "anything: standard input: $stopped"
    tried sheet "$dir/one.log" "$dir/$log.log" "$dir/one.log"
    said "$log.log" sheet "sheet: $dir/$log.log: $stopped"
    [ "$(wc -l < "$dir/out")" = 5 ] || fail "sheet, $log.log: $(wc -l < "$dir/out") lines"
    cp "$dir/out" "$dir/by-name"
    { for l in one $log one; do wc -c < "$dir/$l.log" && cat "$dir/$l.log"; done; } | tried sheet
    said "$log.log after its length" sheet "sheet: log 1: $stopped"
    cmp "$dir/by-name" "$dir/out"
done << LOGS
11|no 0|record 0 broken 11: $(words 11)
later|no 2|record 2 broken 11: $(words 11)
12|no 70000|record 70000 broken 12: $(words 12)
short|log refused 11|the log is refused 11: $(words 11)
1|log refused 1|the log is refused 1: $(words 1)
2|log refused 2|the log is refused 2: $(words 2)
3|log refused 3|the log is refused 3: $(words 3)
LOGS
{ seq 4095 | sed "s|.*|0|"; echo 4; cat "$dir/11.log"; } > "$dir/most"
tried sheet < "$dir/most"
[ "$(tail -n 1 "$dir/err")" = "sheet: log 4095: record 0 broken 11: $(words 11)" ] || fail "sheet: the last of 4,096 logs"
# Behind a refusal nothing more is read: what comes here never ends.
set +o pipefail
{ echo 'no length'; cat /dev/zero; } 2> /dev/null | tried sheet
set -o pipefail
[ "$(cat "$dir/out")" = 'sheet refused 5' ] || fail "sheet: no length: $(cat "$dir/out")"
tried sheet "$dir/11.log" - "$dir/one.log" < "$dir/12.log"
said "two that stop" sheet "sheet: $dir/11.log: record 0 broken 11: $(words 11)" \
    "sheet: standard input: record 70000 broken 12: $(words 12)"
# A yes stays a yes whatever is behind it, and nothing is said of that; nor of a blank log that is whole.
{ cat "$dir/one.log"; printf '\x07'; } > "$dir/yes.log"
tried anything "$dir/yes.log"
[ "$(cat "$dir/out")" = 'yes 0' ] || fail "anything: a fault behind a yes"
said "a fault behind a yes" anything
{ printf '\x02\x01\x00'; blank 3; } > "$dir/blank.log"
tried anything "$dir/blank.log"
[ "$(cat "$dir/out")" = 'no 3' ] || fail "anything: a blank log"
said "a blank log" anything
tried sheet "$dir/blank.log" "$dir/one.log"
said "logs that end well" sheet
echo "programs: the loops of four programs tried"
