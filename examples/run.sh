#!/bin/sh
# Builds and runs the examples in C and in Rust.
# The archive is target/staticlib/libwospinzo.a, or in WOSPINZO_LIB_DIR, which
# is an absolute path.
set -eu
cd "$(dirname "$0")/.."
lib=${WOSPINZO_LIB_DIR-$PWD/target/staticlib}
WOSPINZO_LIB_DIR=$lib
CARGO_TARGET_DIR="$PWD/target/cargo"
export WOSPINZO_LIB_DIR CARGO_TARGET_DIR
mkdir -p target/examples

for example in executive dispatcher; do
    ${CC:-cc} -std=c99 -O2 -Wall -Wextra -pedantic -Werror -Iinclude \
        -o target/examples/$example examples/c/$example.c "$lib/libwospinzo.a"
    echo "C, $example:"
    target/examples/$example
done

cargo build --quiet --release --offline --manifest-path examples/rust/Cargo.toml
for example in executive dispatcher; do
    echo "Rust, $example:"
    target/cargo/release/$example
done
