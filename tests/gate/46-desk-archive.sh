#!/usr/bin/env bash
# What archivists keep: sidecars, cue points, sums, documents of JSON, and whether a log carries a file. All of it through a
# build that notices a wrong use of memory. Files are judged by readers that aren't ours, verdicts by the third reading of
# docs/RULES.md.
set -eu -o pipefail
export LC_ALL=C PYTHONDONTWRITEBYTECODE=1
bash tests/need.sh sox flac sndfile-programs ffmpeg
tool=${DESK:-target/desk}
make --no-print-directory -s -f desk/desk.mk "$tool/rimesatchel" "$tool/rimesatchel-asan"
dir=$(mktemp -d)
trap 'rm -rf "$dir"' EXIT
# The same tool with room for 20,000 octets in a plain WAV file, which otherwise has 4 GB.
make --no-print-directory -s -f desk/desk.mk desk DESK="$dir" DESK_MORE='-O0 -DSOUND_RIFF_OCTETS=20000'
python3 tests/desk_archive.py "$tool/rimesatchel-asan" "$dir/rimesatchel"
python3 tests/desk_json.py "$tool/rimesatchel-asan" "$dir/rimesatchel"
python3 tests/desk_verify.py "$tool/rimesatchel-asan" 100
