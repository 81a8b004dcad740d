#!/usr/bin/env bash
# Proves and builds, with a line for each crate as it is proved. All that the prover says goes to a file.
#
#   bash tools/prove.sh                      prove every crate, and build the programs
#   bash tools/prove.sh programs PROGRAM..   prove programs and what they need, and build them
#   bash tools/prove.sh program PROGRAM MACHINE, archive NAME [MACHINE]    as tools/native.py takes these words
set -u
export LC_ALL=C
cd "$(dirname "$0")/.." || exit 2
log=target/prove.log
mkdir -p target
echo "what the prover says goes to $log; a line for each crate:"
built() {
    if [ $# != 0 ]; then python3 tools/native.py "$@"; else rt all check && python3 tools/native.py programs; fi
}
built "$@" 2>&1 | tee "$log" | sed -un 's/^rt: /  /p; s/^native: /  /p; s/^crate \([a-z_]*\): modules.*/  \1/p'
status=${PIPESTATUS[0]}
[ "$status" = 0 ] || {
    echo "not proved; the first errors of $log:" >&2
    grep -m 5 'error' "$log" | cut -c 1-300 >&2
}
exit "$status"
