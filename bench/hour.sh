#!/usr/bin/env bash
# A reading of one hour in stereo, 24 bits, through the desk tool: time and the most memory held, beside sox and cat of the same
# octets. Takes 4 GB of room in TMPDIR and some minutes. docs/SPEED.md has the numbers.
#
#   make desk-hour
set -eu
export LC_ALL=C
bash tests/need.sh sox sndfile-programs
here=$PWD
desk=$here/target/desk/rimesatchel
dir=$(mktemp -d)
trap 'rm -rf "$dir"' EXIT
cd "$dir"
gcc -O1 -std=c11 -D_GNU_SOURCE -Wall -Wextra "$here/tests/peak.c" -o peak
sox -R -n -r 48000 -b 24 -c 2 hour.wav synth 3600 pinknoise whitenoise vol 0.9

tried() { # NAME COMMAND..
    printf '%-18s' "$1"
    shift
    { ./peak "$@" > out; } 2>&1
}
tried "send" "$desk" send -q hour.wav hour.log
tried "receive" "$desk" receive -q hour.log back.wav
sndfile-cmp hour.wav back.wav
rm back.wav
tried "list" "$desk" list -q hour.log
tried "sheet" "$desk" sheet -q hour.log
tried "salvage" "$desk" salvage -q hour.log saved.log
cmp hour.log saved.log
rm saved.log
tried "labels" "$desk" labels -q hour.log
tried "picture" "$desk" picture -q hour.log hour.png
tried "cat of the log" cat hour.log
tried "cat of the sound" cat hour.wav
tried "sox to FLAC" sox hour.wav hour.flac
ls -l hour.wav hour.log
