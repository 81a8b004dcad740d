#!/usr/bin/env bash
# The reading room's tests: the vectors through its library, its reader against the desk tool, wrong readers, and the page in
# Chromium where that is asked for.
#
#   bash tests/page/run.sh EACH SPOILED [browser]      EACH, SPOILED: as tests/page/desk.py takes them
set -eu -o pipefail
export LC_ALL=C PYTHONDONTWRITEBYTECODE=1
bash tests/need.sh nodejs
page=${PAGE:-target/page} desk=$PWD/${DESK:-target/desk}/rimesatchel
dir=$(mktemp -d)
trap 'rm -rf "$dir"' EXIT

node tests/page/vectors.mjs "$page/library.wasm" tests/vectors
python3 tests/page/desk.py "$desk" "$dir/room" "$1" "$2"
node tests/page/reader.mjs "$page/reader.js" "$dir/room"
# the same in pieces of three records: so nearly everything stands at a border
sed 's/^const PIECE_RECORDS = 16384;$/const PIECE_RECORDS = 3;/' "$page/reader.js" > "$dir/small.js"
if cmp -s "$page/reader.js" "$dir/small.js"; then echo "page: the pieces weren't made small" >&2; exit 1; fi
node tests/page/reader.mjs "$dir/small.js" "$dir/room"

# planted WHAT FROM TO: a reader with FROM turned into TO is noticed
planted() {
    node - "$page/reader.js" "$dir/wrong.js" "$2" "$3" << 'JS'
const fs = require('fs'), [, , from, to, was, is] = process.argv, text = fs.readFileSync(from, 'utf8');
if (text.split(was).length !== 2) throw Error(`the reader has ${text.split(was).length - 1} times ${was}`);
fs.writeFileSync(to, text.replace(was, () => is));
JS
    if node tests/page/reader.mjs "$dir/wrong.js" "$dir/room" > "$dir/said"; then
        echo "page: a reader that $1 passes" >&2
        exit 1
    fi
    grep -q ', [1-9][0-9]* differences$' "$dir/said" || { cat "$dir/said" >&2; exit 1; }
}
planted "skips a refused record's gap" 'const own = (report[REPORT_MISSING] + 1) * entries;' \
    'const own = (this.refusedLast > 0 ? 1 : report[REPORT_MISSING] + 1) * entries;'
planted 'forgets the last stretch' 'log.walk({handed(given) { stretches.take(given); }});
    stretches.end();' 'log.walk({handed(given) { stretches.take(given); }});'
planted 'rounds ties up' 'if (!isTie) return' 'return'
planted 'takes marks for samples' 'let value = samples[2 * entry] << up >> down;' 'let value = log.library.marks[entry];'
planted 'puts in nothing for slips' 'if (overhead && slip[SLIPPED_WHAT] === SLIP_PERHAPS)' 'if (false)'
planted "doesn't look past its piece for what decides" 'said < 0 && from < this.size' 'said < -1 && from < this.size'
planted 'forgets at a point what second numbers said' 'watch.set(start.watch);' 'watch.fill(0);'
planted 'lets a cell wait that was decided' 'this.refusedLast = this.perhaps = 0;' 'this.refusedLast = 0;'
planted 'puts a list forward by no missing cells' 'LIST_MISSING: missing,' 'LIST_MISSING: 0,'
echo "page: nine wrong readers noticed"

if [ "${3:-}" = browser ]; then
    bash tests/need.sh chromium
    node tests/page/page.mjs "$page/rimesatchel.html" "$dir/room" "$desk" "$page"
fi
