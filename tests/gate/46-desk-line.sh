#!/usr/bin/env bash
# The two boxes of the desk tool from captures, without a socket: `record` puts datagrams in their order, begins a new log where
# the place isn't known, counts, and ends with a status; `play` writes them. tests/line.sh has what needs sockets and time.
. tests/desk_try.sh
python3 "$here/tests/line_try.py" "$desk"

"$desk" play -q in.log --capture in.pcap
record() { "$desk" record "$@" --channels 2; }
tried() { ends "$@" && rm -f x*.log; }
tried 0 "cells=2000 sound=2000 missing=0 refused=0 damaged=0" record x.log --capture in.pcap
tried 0 "status=0" piped in.pcap "$desk" record x.log --capture - --channels 2
piped in.log "$desk" play -q - --capture - | cmp - in.pcap || fail "play from standard input to standard output"

# Wrong calls.
for call in "x.log --capture in.pcap" "x.log --channels 2" "--capture in.pcap --channels 2" "- --capture in.pcap --channels 2" \
    "x.log y.log --capture in.pcap --channels 2" "x.log --capture in.pcap --listen 6700 --channels 2" \
    "x.log --listen 6700 --port 6700 --channels 2"; do
    # shellcheck disable=SC2086
    ends 64 "" "$desk" record $call
done
for words in "--label 15" "--label 1048576" "--circuit 4096/1" "--circuit 1/65536" "--circuit 1" "--circuit 1/2/3" \
    "--circuit -1/2" \
    "--gap 120" "--pieces 0" "--pieces 10001" "--for 0" "--for -1" "--for nan" "--for 1e3" "--idle 0x1" "--allow 1000001" \
    "--most 51" "--rate 0" "--format 5G" "--format 06 --gap 1" "--port 0" "--port 65536"; do
    # shellcheck disable=SC2086
    ends 64 "" record x.log --capture in.pcap $words
done
for words in "" "--to 127.0.0.1 --capture x.pcap" "--to :6700" "--to ::1" "--to [::1]6700" "--to [::1" "--to 127.0.0.1:0" \
    "--to 127.0.0.1:x" "--capture x.pcap --group 0" "--capture x.pcap --group 15" "--capture x.pcap in.log"; do
    # shellcheck disable=SC2086
    ends 64 "" "$desk" play in.log $words
done
ends 64 "an IPv6 address stands in brackets" record x.log --listen ::1:6700
ends 64 "isn't loopback, and everybody could write into the reading: --from HOST" record x.log --listen 0.0.0.0:6700
ends 64 "isn't loopback" record x.log --listen '[::]:6700'
[ -z "$(ls x* 2> /dev/null)" ] || fail "a wrong call left $(ls x*)"

# What is there is kept, also a later piece.
for name in x.log x.2.log x.100.log; do
    echo kept > $name
    ends 3 "$name: is there already, and is kept" record x.log --capture in.pcap
    [ "$(ls x*)" = $name ] && [ "$(cat $name)" = kept ] || fail "$name wasn't kept"
    rm $name
done
ln -s y.log x.log
ends 3 "x.log: is there already, and is kept" record x.log --capture in.pcap
[ ! -e y.log ] || fail "a link was followed"
rm x.log
ends 3 "in.pcap: is there already, and is kept" "$desk" play in.log --capture in.pcap
ends 3 "nowhere/x.log: No such file or directory" record nowhere/x.log --capture in.pcap
ends 3 "nosuch.pcap: No such file or directory" record x.log --capture nosuch.pcap
ends 2 "torn.log: record 20 broken 12" "$desk" play torn.log --capture torn.pcap
tried 0 "cells=20 sound=20 " record x.log --capture torn.pcap
ends 2 "this isn't a log" "$desk" play in.wav --capture x.pcap
ends 3 "nosuch.log: No such file" "$desk" play nosuch.log --capture x.pcap
[ ! -e x.pcap ] || fail "a capture of no log"

# The names of pieces.
python3 - "$here" << 'PY'
import pathlib, sys
sys.path.insert(0, sys.argv[1] + '/tests')
import line_made as made
line = made.captured(pathlib.Path('in.pcap').read_bytes())
pathlib.Path('pieces.pcap').write_bytes(made.capture(line[:20] + line[30:60] + line[80:]))
PY
for name in x x.log none/x.y.log none/.x ./x.d; do
    ends 1 "pieces=3 status=1" record $name --capture pieces.pcap
done
[ "$(echo x* none/x* none/.x*)" = "x x.2 x.2.d x.2.log x.3 x.3.d x.3.log x.d x.log \
none/x.y.2.log none/x.y.3.log none/x.y.log none/.x none/.x.2 none/.x.3" ] || fail "names of pieces: $(echo x* none/x* none/.x*)"
rm -f x* none/x* none/.x*

# A file that may not grow, in the middle of a record: whole records are left, and nothing else.
kept() { # RECORDS: these are in x.log, as they were sent
    [ "$(stat -c %s x.log)" = $((3 + 49 * $1)) ] || fail "x.log has $(stat -c %s x.log) octets and not $1 records"
    cmp -n $((3 + 49 * $1)) x.log in.log || fail "x.log has other records"
    ends 0 "end $1 kept 0 left out 0 cut" "$desk" salvage x.log y.log
    rm -f x.log y.log
}
short() { (ulimit -f "$1" && shift && record "$@"); }
ends 3 "1253 whole records are kept" short 60 x.log --capture in.pcap
grep -q 'status=3$' printed || fail "no line with status 3"
kept 1253
ends 3 "there is no room for all that can come" short 60 x.log --capture in.pcap --for 1
[ ! -e x.log ] || fail "a log without a record is left"
ends 3 "x.log: more came than --most lets in: 1000 records are kept" record x.log --capture in.pcap --most 49051
kept 1000

# Room is taken beforehand, and what isn't used is given back.
mkfifo line.pcap
"$desk" record x.log --capture line.pcap --for 60 --channels 2 > printed 2> said &
running=$!
exec 8> line.pcap
head -c 100000 in.pcap >&8
for _ in $(seq 100); do
    [ ! -e x.log ] || [ "$(stat -c %b x.log)" -lt 40000 ] || break
    sleep 0.05
done
if ! grep -q "room can't be taken beforehand" said; then
    [ "$(stat -c %b x.log)" -ge 40000 ] || fail "no room was taken: $(stat -c '%s octets, %b blocks' x.log)"
fi
# TERM ends it orderly: whole records, and a status of its own.
for _ in $(seq 100); do
    kill -TERM "$running" 2> /dev/null || break
    sleep 0.05
done
status=0
wait "$running" || status=$?
exec 8>&-
[ "$status" = 0 ] && grep -q "^cells=1536 .*status=0$" printed || fail "TERM: $status, $(cat printed)"
[ "$(stat -c %b x.log)" -lt 400 ] || fail "room wasn't given back: $(stat -c '%s octets, %b blocks' x.log)"
kept 1536
echo "desk: the line, from captures"
