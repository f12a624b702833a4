#!/usr/bin/env bash
# Compares the program `rehearse` with the plain Rust one: on the scripts of tests/scripts/ and scripts/, whose output was worked out by
# hand, and on scripts made at random.
set -u
cd "$(dirname "$0")/.." || exit 1
. tests/must
must crates/rehearse rt run
must oracle cargo build --release --offline --quiet --bin compare_rehearse
oracle/target/release/compare_rehearse crates/rehearse/out/rehearse tests/scripts scripts
