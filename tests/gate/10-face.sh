#!/usr/bin/env bash
# The proved library in other languages: vectors, story, comparison with a fixed seed, and the three examples.
set -eu -o pipefail
export LC_ALL=C
for archive in rimesatchel management; do
    [ -e "${RIME_LIB:-target/staticlib}/lib$archive.a" ] || python3 tools/native.py archive "$archive"
done
if [ -d crates/linelist ] && [ ! -x target/bin/linelist ]; then
    echo "face: crates/linelist stands but target/bin/linelist doesn't" >&2
    exit 1
fi
make --no-print-directory -f tests/face.mk face-test
