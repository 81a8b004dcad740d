#!/usr/bin/env bash
# Writes a tarball of a commit, named by its version and the commit, and its checksum beside it.
#
#   bash tools/dist.sh [COMMIT]   writes target/dist/rimesatchel-VERSION-COMMIT.tar.gz and .tar.gz.sha256; HEAD where none is named
#   bash tools/dist.sh test       writes that of HEAD, unpacks it elsewhere and runs the gate there
set -eu -o pipefail
export LC_ALL=C
cd "$(dirname "$0")/.."
test=
[ "${1:-}" != test ] || { test=yes && shift; }
commit=${1:-HEAD}
[ -e .git ] || { echo "dist: this isn't a git repository: a tarball is of a commit" >&2; exit 1; }

version=$(git show "$commit:include/rimesatchel.h" | sed -n 's/^#define RIME_VERSION "\(.*\)"/\1/p')
name=rimesatchel-$version-$(git rev-parse --short "$commit")
mkdir -p target/dist
git archive --format=tar.gz --prefix="$name/" -o "target/dist/$name.tar.gz" "$commit"
(cd target/dist && sha256sum "$name.tar.gz" > "$name.tar.gz.sha256")
echo "target/dist/$name.tar.gz"
[ "$test" ] || exit 0

dist=$PWD/target/dist
dir=$(mktemp -d)
trap 'rm -rf "$dir"' EXIT
(cd "$dist" && sha256sum --check --quiet "$name.tar.gz.sha256")
tar -xzf "$dist/$name.tar.gz" -C "$dir"
make -C "$dir/$name" test
