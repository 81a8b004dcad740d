#!/usr/bin/env bash
# The reading room: the vectors through its library, its reader against the desk tool, wrong readers, and the page in Chromium
# where that is there or can be installed.
set -eu -o pipefail
export LC_ALL=C
make --no-print-directory page desk
browser=
if bash tests/need.sh chromium; then browser=browser; else echo "page: it isn't tried in a browser, since Chromium isn't here"; fi
bash tests/page/run.sh 3 200 $browser
