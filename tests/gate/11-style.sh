#!/usr/bin/env bash
# Shell scripts as shellcheck wants them, down to its warnings; Rust as cargo fmt and clippy do.
set -eu -o pipefail
export LC_ALL=C
bash tests/need.sh shellcheck
# A page may show a script: it is one only where that is its first line.
mapfile -t scripts < <(grep -rnm 1 -E --exclude-dir=target --exclude-dir=.git '^#!.*\<(bash|sh)$' . | sed -n 's/:1:#!.*//p')
[ "${#scripts[@]}" -gt 10 ] || { echo "style: the scripts weren't found" >&2; exit 1; }
shellcheck --severity=warning --external-sources --format=gcc "${scripts[@]}"

cargo fmt --version > /dev/null 2>&1 && cargo clippy --version > /dev/null 2>&1 || {
    echo "style: cargo fmt and clippy are missing: rustup component add rustfmt clippy" >&2
    exit 1
}
export RIMESATCHEL_LIB=$PWD/target/lib
for crate in bindings/rust examples/rust tests/compare; do
    cargo fmt --check --manifest-path "$crate/Cargo.toml"
    cargo clippy --quiet --offline --locked --all-targets --all-features --manifest-path "$crate/Cargo.toml" \
        --target-dir target/compare -- -D warnings
done
echo "style: ${#scripts[@]} shell scripts, three Rust crates"
