#!/usr/bin/env bash
# What is installed, used from C, Rust and Python as another project would, in a folder that has nothing else: a fresh venv is the
# prefix, and nothing but pkg-config and that venv's own Python say where things are. The wheel and the crate's package are built
# without a network. What make uninstall leaves is what was there before.
set -eu -o pipefail
export LC_ALL=C PYTHONDONTWRITEBYTECODE=1
bash tests/need.sh pkg-config python3-pip mypy
unset PYTHONPATH RIMESATCHEL_LIB
here=$PWD
dir=$(mktemp -d)
trap 'rm -rf "$dir"' EXIT
fail() {
    echo "install: $*" >&2
    exit 1
}
# says WORDS COMMAND..: the command fails and says these words, and it isn't a panic
says() {
    local words=$1
    shift
    if "$@" > "$dir/said" 2>&1; then fail "$* did not fail"; fi
    grep -qF -- "$words" "$dir/said" || { cat "$dir/said"; fail "$*: no word of: $words"; }
    ! grep -q panicked "$dir/said" || { cat "$dir/said"; fail "$*: a panic"; }
}
in_repository() { make --no-print-directory -s -C "$here" "$@"; }

[ -e target/lib/librime_management.so ] || in_repository lib
mkdir "$dir/elsewhere"
cp examples/c/*.c examples/python/*.py examples/rust/handover.rs examples/*.expected "$dir/elsewhere/"
cd "$dir/elsewhere"

# pip, each time in a fresh venv: from the repository, and from a source archive that stands alone. The library isn't in the wheel.
by_pip() { # NAME WHAT
    /usr/bin/python3 -m venv --without-pip "$dir/$1"
    python=$dir/$1/bin/python
    /usr/bin/python3 -m pip --python "$python" install --quiet --no-index --disable-pip-version-check "$2"
    version=$("$python" -c 'import importlib.metadata as installed; print(installed.version("rimesatchel"))')
}
by_pip pip "$here/bindings/python"
if ! /sbin/ldconfig -p | grep -qF librimesatchel; then # this machine has none of its own
    says '`make install` puts it in place, or RIMESATCHEL_LIB names its folder' "$python" -c 'import rimesatchel'
fi
says "isn't in $dir, the folder that RIMESATCHEL_LIB names" env RIMESATCHEL_LIB="$dir" "$python" -c 'import rimesatchel'
RIMESATCHEL_LIB=$here/target/lib "$python" handover.py | diff handover.expected -
(cd "$here/bindings/python" && "$python" -c 'import backend, sys; backend.build_sdist(sys.argv[1])' "$dir/elsewhere")
by_pip sdist "rimesatchel-$version.tar.gz"
RIMESATCHEL_LIB=$here/target/lib "$python" cast.py | diff cast.expected -

# Python: the module is found by the venv's own Python alone, and its types by mypy.
/usr/bin/python3 -m venv --without-pip "$dir/venv"
python=$dir/venv/bin/python
find "$dir/venv" | sort > "$dir/before"
in_repository install PREFIX="$dir/venv" PYTHON="$python"
for example in handover cast; do "$python" $example.py | diff $example.expected -; done
"$python" -c 'import doctest, rimesatchel, sys; sys.exit(doctest.testmod(rimesatchel).failed != 0)'
[ "$("$python" -c 'import rimesatchel; print(rimesatchel.VERSION)')" = "$version" ] || fail "the wheel is $version"
typed() { mypy --strict --cache-dir "$dir/mypy" "$@" > "$dir/said" || { cat "$dir/said"; fail "mypy $*"; }; }
typed --python-executable "$python" handover.py cast.py
typed "$here"/bindings/python/*.py "$here/bindings/python/rimesatchel"

# C: pkg-config names the archive; the shared library is found by its soname.
export PKG_CONFIG_PATH=$dir/venv/lib/pkgconfig
[ "$(pkg-config --modversion rimesatchel rime_management | sort -u)" = "$version" ] || fail "pkg-config has another version"
# shellcheck disable=SC2046 # several words
gcc -std=c99 -Wall -Wextra -Werror management.c $(pkg-config --cflags --libs rime_management rimesatchel) -o management
./management | diff management.expected -
gcc -std=c99 -Wall -Wextra -Werror -I"$dir/venv/include" handover.c -L"$dir/venv/lib" -lrimesatchel -o shared
objdump -p shared | grep -q "NEEDED *librimesatchel.so.${version%%.*}$" || fail "the soname doesn't have the version's first number"
LD_LIBRARY_PATH=$dir/venv/lib ./shared | diff handover.expected -

# No name but the calls is visible, and all of them are.
for name in rimesatchel rime_management; do
    sed -n 's/^[a-z0-9_]* \(rime_[a-z0-9_]*\)(.*/\1/p' "$here/include/$name.h" | sort > calls
    nm -g --defined-only "$dir/venv/lib/lib$name.a" | sed -n 's/^[0-9a-f]* . //p' | sort | diff calls -
    nm -D --defined-only "$dir/venv/lib/lib$name.so" | sed 's/.* //; /^rime_refusal_words$/d; /^rime_version$/d' | sort | diff calls -
done

# Rust: the crate's package is built over what is installed, and a program over the package; without a library it says what to do.
package=$dir/cargo/package/rimesatchel-$version
cargo package --quiet --offline --locked --allow-dirty --manifest-path "$here/bindings/rust/Cargo.toml" --target-dir "$dir/cargo" \
    > "$dir/said" 2>&1 || { cat "$dir/said"; fail "cargo package"; }
cat > Cargo.toml << TOML
[package]
name = "elsewhere"
version = "0.0.0"
edition = "2021"
[[bin]]
name = "handover"
path = "handover.rs"
[dependencies]
rimesatchel = { path = "$package", features = ["management"] }
TOML
cargo run --quiet --offline --target-dir "$dir/cargo" | diff handover.expected -
says "RIMESATCHEL_LIB names its folder" env -u PKG_CONFIG_PATH PKG_CONFIG_LIBDIR="$dir" cargo build --quiet --offline --target-dir "$dir/cargo"
says "librimesatchel.a isn't there" env RIMESATCHEL_LIB="$dir" cargo build --quiet --offline --target-dir "$dir/cargo"

in_repository uninstall PREFIX="$dir/venv" PYTHON="$python"
find "$dir/venv" | sort | comm -13 "$dir/before" - | while read -r left; do
    [ -d "$left" ] || fail "left behind: $left"
done
find "$dir/venv" | sort | comm -23 "$dir/before" - | diff /dev/null - || fail "something else was removed"

# A packager's folder in front: nothing of it is in what is installed. Debian's Python looks where the module is, under each prefix.
for prefix in /usr /usr/local; do
    stage=$dir/stage${prefix//\//-}
    in_repository install DESTDIR="$stage" PREFIX=$prefix PYTHON=/usr/bin/python3
    ! grep -rqF "$dir" "$stage$prefix/lib/pkgconfig" || fail "DESTDIR stands in a pkg-config file"
    module=$(cd "$stage" && find . -name py.typed)
    module=${module#.}
    /usr/bin/python3 -c 'import site, sys; sys.exit(sys.argv[1] not in site.getsitepackages())' "${module%/rimesatchel/py.typed}" ||
        fail "Debian's Python doesn't look for ${module%/py.typed}"
done
echo "install: version $version from C, Rust and Python elsewhere, by pip and cargo package too; uninstall leaves nothing"
