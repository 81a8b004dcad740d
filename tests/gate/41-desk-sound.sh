#!/usr/bin/env bash
# The desk tool's sound: sampling frequencies, bits and lengths of files, all fourteen formats, and labels by channel; spoiled logs.
set -eu -o pipefail
export LC_ALL=C
bash tests/need.sh sox flac netpbm sndfile-programs
make --no-print-directory -f desk/desk.mk desk
lib=${RIME_LIB:-target/staticlib}
dir=$(mktemp -d)
trap 'rm -rf "$dir"' EXIT
gcc -O1 -std=c11 -Wall -Wextra -Werror -Iinclude tests/desk_log.c "$lib/librimesatchel.a" -o "$dir/desk_log"
# The same tool with files of at most 60,000 octets of AIFF and 10,000 samples a channel of FLAC. `make desk-limits` reaches the
# real ones.
make --no-print-directory -s -f desk/desk.mk desk DESK="$dir" \
    DESK_MORE='-O0 -DSOUND_AIFF_OCTETS=60000 -DSOUND_FLAC_FRAMES=10000'
python3 tests/desk_sound.py "${DESK:-target/desk}/rimesatchel" "$dir/rimesatchel" "$dir/desk_log"
# Three spoiled logs of each format, held against the reading of docs/RULES.md alone. `make desk-third` takes more.
python3 tests/desk_third.py "${DESK:-target/desk}/rimesatchel" 42 1 6
# Outages of up to 200 cells, told by second numbers.
python3 tests/desk_slips.py "${DESK:-target/desk}/rimesatchel" tests/vectors
