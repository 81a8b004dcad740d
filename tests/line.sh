#!/usr/bin/env bash
# What the two boxes do with sockets, a full disk, spoiled input and time: outside the gate. `make line` runs all parts.
#
#   bash tests/line.sh [PART..]
#
# SOAK=SECONDS  how long the line over two namespaces runs: an hour where it is left out
# SEED=NUMBER   of the spoiled datagrams and captures
# ONLY=NAME     one wrong build alone
set -eu -o pipefail
export LC_ALL=C
here=$PWD
desk=${DESK_TOOL:-$here/target/desk/rimesatchel}
lib=${RIME_LIB:-$here/target/staticlib}
seed=${SEED:-1}
dir=$(mktemp -d)
trap 'umount "$dir/full" 2> /dev/null || :; rm -rf "$dir"' EXIT
built=$here/target/line
mkdir -p "$built"

fail() {
    echo "line: $*" >&2
    exit 1
}

# made NAME CELLS [SILENT]: a log of this number of cells
made() {
    python3 - "$desk" "$dir" "$1" "$2" "${3:-}" << PY
import pathlib, sys
sys.path.insert(0, '$here/tests')
import line_made
folder = pathlib.Path(sys.argv[2])
(folder / sys.argv[3]).write_bytes(line_made.made_log(sys.argv[1], folder, int(sys.argv[4]), silent=bool(sys.argv[5])))
PY
}

# taking WORDS..: a recorder that listens on 6712, in the background
taking() {
    rm -f "$dir"/x*.log
    "$desk" record "$dir/x.log" --channels 2 "$@" > "$dir/printed" 2> "$dir/said" &
    running=$!
    for _ in $(seq 100); do
        if grep -q listening "$dir/said"; then return; fi
        sleep 0.02
    done
    fail "nobody listens: $(cat "$dir/said")"
}

# took STATUS WORDS: the recorder ended so, and said or printed this
took() {
    local status=0
    wait "$running" || status=$?
    [ "$status" = "$1" ] || fail "record ended with $status and not $1: $(cat "$dir/said" "$dir/printed")"
    grep -qF -- "$2" "$dir/said" "$dir/printed" || fail "no word of: $2: $(cat "$dir/said" "$dir/printed")"
}

# whole: what is left is whole records, and salvage leaves out and cuts nothing
whole() {
    local records
    records=$((($(stat -c %s "$1") - 3) / 49))
    [ "$(stat -c %s "$1")" = $((3 + 49 * records)) ] || fail "$1 has a part of a record"
    "$desk" salvage "$1" "$dir/saved" 2>&1 | grep -qx "end $records kept 0 left out 0 cut" || fail "$1 isn't whole"
    cmp "$1" "$dir/saved" && rm "$dir/saved"
    cmp -n "$(stat -c %s "$1")" "$1" "$dir/long.log" || fail "$1 has other records than were sent"
}

part_read() {
    bash tests/need.sh tshark
    python3 tests/line_read.py "$desk" 40000
}

part_socket() {
    local at status=0
    made long.log 16000
    for at in 127.0.0.1:6712 '[::1]:6712'; do
        taking --listen "$at" --idle 2
        "$desk" play -q "$dir/long.log" --to "$at" || fail "play ended with $?"
        took 0 "cells=16000 sound=16000 missing=0 refused=0 damaged=0"
        cmp "$dir/long.log" "$dir/x.log" || fail "$at: another log than was played"
    done
    taking --listen 6712
    (sleep 1 && kill -TERM "$running") &
    "$desk" play -q "$dir/long.log" --to 127.0.0.1:6712 2> "$dir/played" || status=$?
    [ "$status" = 1 ] && grep -q "nobody listened" "$dir/played" || fail "play to one that ended: $status"
    took 0 "status=0"
    whole "$dir/x.log"
    taking --listen 6712 --least 2
    (sleep 1 && kill -INT "$running") &
    "$desk" play -q "$dir/long.log" --to 127.0.0.1:6712 2> /dev/null || :
    took 1 "NO: "
    made still.log 4000 silent
    taking --listen 6712 --idle 2
    "$desk" play -q "$dir/still.log" --to localhost:6712
    took 1 "NO: nothing but silence came"
    taking --listen 6712 --idle 2
    took 1 "NO: no cell came"
    taking --listen 6712 --for 0.5
    took 1 "NO: no cell came"
    taking --listen 6712 --from 127.0.0.9 --idle 2
    "$desk" play -q "$dir/still.log" --to 127.0.0.1:6712 2> /dev/null || :
    took 1 "NO: no cell came"
    grep -q "from strangers" "$dir/said" || fail "no word of strangers"
    taking --listen 0.0.0.0:6712 --from localhost --idle 3
    "$desk" play -q "$dir/long.log" --to 127.0.0.1:6712 &
    status=0
    "$desk" record "$dir/y.log" --channels 2 --listen 6712 --for 3 > /dev/null 2> "$dir/second" || status=$?
    [ "$status" = 3 ] && grep -q "Address already in use" "$dir/second" || fail "a port that is taken: $status"
    [ ! -e "$dir/y.log" ] || fail "a log of a port that is taken"
    wait $!
    took 0 "cells=16000"
    # A player that is held up doesn't hurry after it; a recorder may begin in the middle.
    taking --listen 6712 --idle 2
    "$desk" play "$dir/long.log" --to 127.0.0.1:6712 2> "$dir/played" &
    sleep 0.5
    kill -STOP $!
    sleep 0.6
    kill -CONT $!
    wait $! || fail "a player that was held up ended with $?"
    grep -q "held up" "$dir/played" || fail "no word of being held up: $(cat "$dir/played")"
    took 0 "cells=16000 "
    "$desk" play -q "$dir/long.log" --to 127.0.0.1:6712 2> /dev/null &
    sleep 0.5
    taking --listen 6712 --idle 2
    took 0 "lost=0 "
    wait $! || :
    head -c 52 "$dir/long.log" > "$dir/one.log"
    status=0
    "$desk" play -q "$dir/one.log" --to 127.0.0.1:6713 2> /dev/null || status=$?
    [ "$status" = 1 ] || fail "one datagram to nobody: $status"
    status=0
    "$desk" play -q "$dir/one.log" --to nosuch.invalid 2> /dev/null || status=$?
    [ "$status" = 3 ] || fail "a host that isn't there: $status"
    echo "line: sockets"
}

part_disk() {
    local time status
    made long.log 16000
    for time in 0.3 0.7 1.1 1.5 1.9; do
        taking --listen 6712
        "$desk" play -q "$dir/long.log" --to 127.0.0.1:6712 2> /dev/null &
        sleep $time
        kill -KILL "$running"
        wait "$running" 2> /dev/null || :
        wait $! || :
        [ "$(stat -c %s "$dir/x.log")" -gt 49000 ] || [ $time = 0.3 ] || fail "after $time s the log is short"
        whole "$dir/x.log"
    done
    "$desk" play -q -F "$dir/long.log" --capture "$dir/long.pcap"
    mkdir -p "$dir/full"
    mount -t tmpfs -o size=200k tmpfs "$dir/full"
    status=0
    "$desk" record "$dir/full/x.log" --capture "$dir/long.pcap" --channels 2 > /dev/null 2> "$dir/said" || status=$?
    [ $status = 3 ] && grep -q "whole records are kept" "$dir/said" || fail "a full disk: $status, $(cat "$dir/said")"
    whole "$dir/full/x.log"
    rm "$dir/full/x.log"
    status=0
    "$desk" record "$dir/full/x.log" --capture "$dir/long.pcap" --channels 2 --for 1 > /dev/null 2> "$dir/said" || status=$?
    [ $status = 3 ] && grep -q "there is no room for all that can come" "$dir/said" || fail "a disk that is too small: $status"
    [ -z "$(ls -A "$dir/full")" ] || fail "a log is left on a disk that is too small"
    umount "$dir/full"
    rm -f "$dir"/x*.log
    status=0
    (ulimit -f 100 && "$desk" record "$dir/x.log" --capture "$dir/long.pcap" --channels 2 > /dev/null 2> "$dir/said") || status=$?
    [ $status = 3 ] || fail "a file limit: $status"
    whole "$dir/x.log"
    echo "line: kill -9 five times, a full disk, a file limit"
}

part_fuzz() {
    local sources=()
    for name in wire order recording kept told say format limits progress place; do sources+=("desk/$name.c"); done
    gcc -std=c11 -D_GNU_SOURCE -g -O1 -Wall -Wextra -Werror -fsanitize=address,undefined -fno-sanitize-recover=all -Iinclude \
        -Idesk tests/line_fuzz.c "${sources[@]}" "$lib/librimesatchel.a" -lm -o "$built/fuzz"
    "$built/fuzz" "$dir/f.log" 1000000 "$seed" 2> "$dir/said" || { tail -n 30 "$dir/said" && fail "spoiled datagrams"; }
    make --no-print-directory -s -f desk/desk.mk "$built/rimesatchel-asan" DESK="$built" RIME_LIB="$lib"
    python3 tests/line_spoil.py "$built/rimesatchel-asan" 1000 "$seed"
}

# wrong NAME FILE EDIT: a build with this edit is refused by the gate's test of the line
wrong() {
    if [ "${ONLY:-$1}" != "$1" ]; then return; fi
    rm -rf "$built/wrong"
    mkdir -p "$built/wrong"
    cp desk/*.[ch] "$built/wrong/"
    sed -i "$3" "$built/wrong/$2"
    ! cmp -s "desk/$2" "$built/wrong/$2" || fail "$1: the edit changes nothing"
    # shellcheck disable=SC2046
    gcc -std=c11 -D_GNU_SOURCE -O1 -Iinclude $(pkg-config --cflags sndfile cairo) "$built"/wrong/*.c "$lib/librimesatchel.a" \
        $(pkg-config --libs sndfile cairo) -lm -o "$built/wrong/rimesatchel" 2> "$dir/said" ||
        { cat "$dir/said" && fail "$1 isn't built"; }
    if DESK_TOOL=$built/wrong/rimesatchel bash tests/gate/46-desk-line.sh > "$dir/said" 2>&1; then fail "$1 isn't noticed"; fi
    echo "line: $1: $(grep -m 1 -E '^(line|desk): [a-z_]+: |^desk: ' "$dir/said" | head -c 110)"
}

part_wrong() {
    local turn='order->turn(\&(struct turn){datagram, 0, false, true, 4}, order->user);'
    wrong "datagrams as they come" order.c \
        '/^bool order_take/,/^}/s/^    unsigned cells = .*/&\n    if (cells > 0) return '"$turn"'/'
    wrong "repeats that wait are passed on" order.c '/^static bool put(/,/^}/s/order->repeated++;/return '"$turn"'/'
    wrong "late repeats are passed on" order.c \
        '/^static bool take_behind/,/^}/s/    \*(repeated ? .*/    if (repeated) return '"$turn"'\n&/'
    wrong "the gap's limit one too high" recording.c 's/here->turned > recording->gap;/here->turned > recording->gap + 1;/'
    wrong "the gap's limit one too low" recording.c 's/here->turned > recording->gap;/here->turned >= recording->gap;/'
    wrong "a cut record left at a full disk" kept.c \
        's/ftruncate(kept->fd, (off_t)whole)/ftruncate(kept->fd, (off_t)kept->octets)/'
    wrong "one log without overhead" recording.c 's/if (!recording->format.overhead) recording->gap = 0;//'
    wrong "refused cells beside lost ones forgotten" recording.c 's/here->away + here->turned > /here->away > /'
    wrong "second numbers aren't asked" recording.c 's/== RIME_SLIP_BEFORE/== 99/'
    wrong "a gap that isn't found isn't said" recording.c 's/    if (!found \&\& /    if (false \&\& found \&\& /'
    wrong "the watch goes on in a new log" recording.c '/^    memset(recording->watch/d'
    wrong "datagrams of several lengths taken for equal" order.c 's/order->uneven = true;/order->uneven = false;/'
    wrong "a window of 63" order.h 's/ORDER_WINDOW = 64,/ORDER_WINDOW = 63,/'
    wrong "40 ms" order.h 's/ORDER_WAIT = 50000000/ORDER_WAIT = 40000000/'
    wrong "far from 127 on" order.h 's/ORDER_FAR = 2 \* ORDER_WINDOW/ORDER_FAR = 2 * ORDER_WINDOW - 1/'
    wrong "begun again after seven" order.h 's/ORDER_AGAIN = 8/ORDER_AGAIN = 7/'
    wrong "allowed by division" told.c \
        's/return missing \* 1000000 > allowed \* all;/return (uint64_t)(missing * 1000000 \/ all) > allowed;/'
    wrong "any label" wire.c 's/entry >> 12 != circuit->label || //'
    wrong "any control word" wire.c 's/if (control >> 28 != 0) return WIRE_CONTROL;//'
    wrong "any label stack" wire.c 's/ || (entry \& BOTTOM) == 0) / || false) /'
    wrong "management cells into the log" wire.c 's/if ((word >> 3 & 1) == 1) return WIRE_MANAGEMENT;//'
    wrong "strangers are taken" line.c 's/return senders->any;/return true;/'
    wrong "fragments are taken" capture.c 's/0x3FFF) != 0/0x3FFF) > 0xFFFF/'
    wrong "room isn't given back" kept.c 's/if (kept->reserved \&\& ftruncate/if (false \&\& ftruncate/'
    wrong "a log that is there is written over" kept.c 's/O_EXCL/O_TRUNC/'
}

# A log that is as long as a log can be is followed by the next one, without a gap and without a no.
part_length() {
    made long.log 16000
    "$desk" play -q -F "$dir/long.log" --capture "$dir/long.pcap"
    rm -rf "$built/short" && mkdir -p "$built/short" && cp desk/*.[ch] "$built/short/"
    sed -i 's/KEPT_RECORDS = 87652393/KEPT_RECORDS = 5000/' "$built/short/kept.h"
    # shellcheck disable=SC2046
    gcc -std=c11 -D_GNU_SOURCE -O1 -Iinclude $(pkg-config --cflags sndfile cairo) "$built"/short/*.c "$lib/librimesatchel.a" \
        $(pkg-config --libs sndfile cairo) -lm -o "$built/short/rimesatchel"
    rm -f "$dir"/x*.log
    "$built/short/rimesatchel" record "$dir/x.log" --capture "$dir/long.pcap" --channels 2 --for 60 --pieces 2 \
        > "$dir/printed" 2> /dev/null || fail "logs by length: $?"
    grep -q "cells=16000 sound=16000 missing=0 refused=0 .*pieces=4 status=0" "$dir/printed" || fail "$(cat "$dir/printed")"
    { cat "$dir/x.log" && for log in "$dir"/x.[234].log; do tail -c +4 "$log"; done; } | cmp - "$dir/long.log" ||
        fail "logs by length"
    echo "line: logs by length"
}

# Processor time beside the plain program: 10 s at 8,000 cells/s, and as fast as datagrams come. What each takes to begin and end
# is left out: the desk tool loads the libraries of its other subcommands. Into one log: where more comes than a machine can take,
# the gaps would begin a hundred. A capture. On a machine that does nothing else.
part_cost() {
    gcc -std=c11 -D_GNU_SOURCE -O2 -Wall -Wextra -Werror tests/line_plain.c -o "$built/plain"
    made long.log 80000
    "$desk" play -q -F "$dir/long.log" --capture "$dir/long.pcap"
    python3 - "$desk" "$built/plain" "$dir" << 'PY'
import os, re, resource, subprocess, sys, time
desk, plain, folder = sys.argv[1:]


def cost(words, feed):
    for name in os.listdir(folder):
        if name.startswith('c'):
            os.unlink(f'{folder}/{name}')
    process = subprocess.Popen(words, stdout=subprocess.PIPE, stderr=subprocess.DEVNULL, text=True)
    time.sleep(0.3)
    subprocess.run(feed, stdout=subprocess.DEVNULL, stderr=subprocess.DEVNULL)
    out = process.stdout.read()
    _, _, used = os.wait4(process.pid, 0)
    return used.ru_utime + used.ru_stime, out, used.ru_maxrss


RECORD = [desk, 'record', f'{folder}/c.log', '--listen', '6712', '--channels', '2', '--idle', '1', '-q', '--pieces', '1']
PLAIN = [plain, 'take', '6712', f'{folder}/c.octets', '1']
base = [min(cost(words, ['true'])[0] for _ in range(3)) for words in (RECORD, PLAIN)]


def rows(name, feed):
    ours, theirs = [], []
    for _ in range(3):
        used, out, most = cost(RECORD, feed)
        ours.append((used - base[0]) / int(re.search(r'cells=(\d+)', out)[1]))
        used = cost(PLAIN, feed)[0]
        theirs.append((used - base[1]) / (os.path.getsize(f'{folder}/c.octets') / 216 * 4))
    ours, theirs = min(ours), min(theirs)
    print(f'line: {name}: {ours * 1e9:.0f} ns a cell, plain {theirs * 1e9:.0f}: {ours / theirs:.2f}; {most} KiB')
    return ours / theirs <= 1.5


good = rows('8,000 cells/s', [desk, 'play', '-q', f'{folder}/long.log', '--to', '127.0.0.1:6712'])
good = rows('as fast as it goes', [plain, 'blast', f'{folder}/long.pcap', '6712', '50']) and good
before = resource.getrusage(resource.RUSAGE_CHILDREN)
subprocess.run([desk, 'record', '-q', f'{folder}/y.log', '--capture', f'{folder}/long.pcap', '--channels', '2'], check=True,
               stdout=subprocess.DEVNULL)
after = resource.getrusage(resource.RUSAGE_CHILDREN)
used = after.ru_utime + after.ru_stime - before.ru_utime - before.ru_stime
print(f'line: a capture: {80000 / used / 1e6:.1f} million cells a second')
sys.exit(not good or 80000 / used < 2e6)
PY
}

part_soak() {
    bash tests/need.sh iproute2
    python3 tests/line_soak.py "$desk" "${SOAK:-3600}"
}

parts=("$@")
[ "${#parts[@]}" -gt 0 ] || parts=(read socket disk length fuzz cost wrong soak)
for part in "${parts[@]}"; do "part_$part"; done
