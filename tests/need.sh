#!/usr/bin/env bash
# Sees that Debian packages, or programs of their names, are there. A missing one is installed where this runs as root, and
# that is said; else it fails with a line that names the package.
#
#   bash tests/need.sh PACKAGE...
set -eu
export LC_ALL=C
for package in "$@"; do
    if command -v "$package" > /dev/null; then continue; fi
    case $(dpkg-query -W -f '${Status}' "$package" 2> /dev/null || true) in *' installed') continue ;; esac
    if [ "$(id -u)" = 0 ] && command -v apt-get > /dev/null; then
        echo "need: $package is missing and is installed now (apt-get install $package)"
        install() { DEBIAN_FRONTEND=noninteractive apt-get install -y -q "$package" > /dev/null 2>&1; }
        install || { apt-get update -q > /dev/null 2>&1 && install; } && continue
    fi
    echo "need: the Debian package $package is missing: apt-get install $package" >&2
    exit 1
done
