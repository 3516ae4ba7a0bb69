#!/bin/sh
# Times the archive against the model.
# Usage: bench/run.sh [FEATURES], the entries that the archive has beyond the
# first four: some of history,script,watch,writing,dispatch (by default all of
# them).
# The archive is target/staticlib/libwospinzo.a, or in WOSPINZO_LIB_DIR, which
# is an absolute path.
set -eu
cd "$(dirname "$0")/.."
CARGO_TARGET_DIR="$PWD/target/cargo"
export CARGO_TARGET_DIR
exec cargo run --quiet --release --offline --manifest-path bench/Cargo.toml \
    --no-default-features --features "${1-history,script,watch,writing,dispatch}"
