#!/usr/bin/env bash
# Compares the program `plan` with the plain Rust reader and printer: on the table tests/plans.txt, and on changed plans.
set -u
cd "$(dirname "$0")/.." || exit 1
. tests/must
must crates/plan rt run
must oracle cargo build --release --offline --quiet --bin compare_text
oracle/target/release/compare_text crates/plan/out/plan tests/plans.txt
