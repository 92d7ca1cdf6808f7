#!/usr/bin/env bash
# Builds both sides, and compares what they print for random inputs and random scripts: compare.sh [SEED [INPUTS [SCRIPTS]]]
cd "$(dirname "$0")/../crates" || exit 1
for name in batch replay; do
    (cd "$name" && rt run < stdin | cmp - stdout) >&2 || exit 1
done
cd ../bench || exit 1
cargo test --release --offline --package plain >&2 || exit 1
cargo build --release --offline >&2 || exit 1
target/release/compare inputs ../crates/batch/out/batch "${2:-100000}" "${1:-1}" || exit 1
target/release/compare scripts ../crates/replay/out/replay "${3:-10000}" "${1:-1}"
