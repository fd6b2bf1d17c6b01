#!/bin/sh
# Tests of the Rust crate over the library: cargo's own, its documents without a warning, and the examples, which print what the C examples print.
#   tests/rust.sh SLP_LIB
set -eu
cd "$(dirname "$0")/.."
SLP_LIB_DIR=$(cd "$(dirname "$1")" && pwd)
CARGO_TARGET_DIR=$PWD/target/rust
export SLP_LIB_DIR CARGO_TARGET_DIR CARGO_NET_OFFLINE=true
mkdir -p "$CARGO_TARGET_DIR"
said=$CARGO_TARGET_DIR/said

cargo test --quiet --manifest-path rust/slp/Cargo.toml >"$said" 2>&1 || { cat "$said"; exit 1; }
passed=$(awk '/^test result: ok/ { n += $4 } END { print n }' "$said")
RUSTDOCFLAGS='-D warnings' cargo doc --quiet --no-deps --manifest-path rust/slp/Cargo.toml
cargo build --quiet --examples --manifest-path rust/slp/Cargo.toml
examples=$CARGO_TARGET_DIR/${CARGO_BUILD_TARGET:-}/debug/examples
tests/c/examples.sh "$examples" | diff -u tests/c/examples.expected -
printf 'rust: '
tests/c/killed.sh "$examples" target/c/bin/dying.so
echo "rust: $passed passed, examples as expected"
