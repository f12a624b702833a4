#!/usr/bin/env bash
# Plays the plain Rust book, which is as docs/BOXES.md has it, on random runs against the plain Rust meaning of docs/MEANING.md; with the real
# sizes the program `boxes` plays the same, and each box that it fills is compared.
set -u
cd "$(dirname "$0")/.." || exit 1
. tests/must
must crates/boxes rt run
must oracle cargo build --release --offline --quiet --bin compare_book
oracle/target/release/compare_book crates/boxes/out/boxes
