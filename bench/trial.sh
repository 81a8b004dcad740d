#!/usr/bin/env bash
# A trial: the library as it stands in crates/, compiled without any proof (tools/quick_face.py) and counted in the place of the
# proved one. It takes some seconds. For seeing what a change costs before it is proved; it says nothing of the proved library.
#
#   bash bench/trial.sh [ROWS]      ROWS is a pattern that picks rows by name; without it all rows are counted
#   target/trial/bench times ROWS   afterwards: nanoseconds of proved, plain C and memcpy
set -eu -o pipefail
export LC_ALL=C
cd "$(dirname "$0")/.."
python3 tools/quick_face.py
bash tests/need.sh valgrind
mkdir -p target/trial
gcc -O3 -std=gnu11 -Wall -Wextra -falign-functions=64 -falign-loops=32 -Iinclude -Ibench \
    bench/{bench,formats,frames,logs,plain,plainsheet,plainwalks,units,walks}.c target/quick/lib/librimesatchel.a -o target/trial/bench
echo 'a trial: not proved'
python3 bench/run.py --count target/trial/bench "${1:-.}"
