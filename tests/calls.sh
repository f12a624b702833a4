#!/usr/bin/env bash
# The proved codec of calls, answers and lines against the table tests/calls.txt and against the plain Rust codec, on
# bytes made from fixed seeds. The last line is 'N passed, M failed'.
set -u
cd "$(dirname "$0")/.." || exit 1
. tests/must
must crates/calls_c rt lib
must bench cargo build --release --offline --quiet
bench/target/release/compare tests/calls.txt
