#!/usr/bin/env bash
# docs/RULES.md as a reader took it who had nothing else (tests/third_reading.py), held against the vectors. A planted fault of
# each part is noticed.
set -eu -o pipefail
export LC_ALL=C PYTHONDONTWRITEBYTECODE=1
dir=$(mktemp -d)
trap 'rm -rf "$dir"' EXIT

python3 tests/third_reading_vectors.py tests/vectors

# planted KIND FILE FROM TO: with FROM turned into TO the runner finds differences
planted() {
    local kind=$1
    shift
    cp tests/third_*.py "$dir"
    grep -qF -- "$2" "$dir/$1" || { echo "third reading: $1 has no $2" >&2; exit 1; }
    python3 - "$dir/$1" "$2" "$3" << 'PYTHON'
import pathlib
import sys

name = pathlib.Path(sys.argv[1])
name.write_text(name.read_text(encoding='ascii').replace(sys.argv[2], sys.argv[3], 1), encoding='ascii')
PYTHON
    if python3 "$dir/third_reading_vectors.py" tests/vectors "$kind" > "$dir/out" 2> "$dir/err"; then
        echo "third reading: $1 with $3 for $2 passes" >&2
        exit 1
    fi
    grep -q ' vectors, [1-9][0-9]* differences' "$dir/out" || { cat "$dir/err" >&2; exit 1; }
}
planted send third_reading.py '0b1011' '0b1101'
planted receive third_reading.py '= 0, 0, MISSING' '= 0, 0, SOUND'
planted status_step third_reading.py '& ~worth |' '|'
planted linelist third_log.py '"sound", report.number' '"sound", report.second'
planted slip third_slips.py '16 * -(-too_far // 2)' '16 * (too_far // 2)'
planted aes3_import third_beside.py 'c << 2 | u << 1' 'u << 2 | c << 1'
planted controller third_port.py 'sum(differ) < fewest' 'sum(differ) <= fewest'
echo "third reading: seven planted faults noticed"
