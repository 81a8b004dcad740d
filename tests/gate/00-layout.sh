#!/usr/bin/env bash
# Every file of Rattle and antt is in the formatter's layout. `rt ci` sees to it too.
set -eu
export LC_ALL=C
mapfile -t files < <(find crates -name out -prune -o \( -name '*.rt' -o -name '*.antt' \) -print)
[ "${#files[@]}" -gt 100 ] || { echo "layout: the files weren't found" >&2; exit 1; }
"$(dirname "$(rt doc)")/bin/rattle" fmt --check "${files[@]}" > /dev/null || {
    echo "layout: run rt fmt in the crates named above" >&2
    exit 1
}
echo "layout: ${#files[@]} files"
