#!/usr/bin/env bash
# Builds both sides for release and measures them on the same inputs, in one process. The two are built for the same processor.
cd "$(dirname "$0")/.." || exit 1
# The static library stands beside copies of the crates, since it is for measuring alone: it promises nothing but that it is safe and ends.
# Its source has another ending here, for the gate takes no code that is in no crate.
proved=bench/target/proved
rm -rf "$proved" && mkdir -p "$proved/crates" || exit 1
cp crates.txt "$proved" || exit 1
echo 'exports staticlib: model console travel program domain pointwise certify session' >>"$proved/crates.txt"
for crate in crates/*; do
    mkdir "$proved/crates/${crate##*/}" || exit 1
    for part in src specs proofs; do
        if [ -d "$crate/$part" ]; then
            cp -r "$crate/$part" "$proved/crates/${crate##*/}" || exit 1
        fi
    done
done
mkdir -p "$proved/crates/exports/src" && cp bench/exports/lib.rt.in "$proved/crates/exports/src/lib.rt" || exit 1
(cd "$proved/crates/exports" && rt lib) >&2 || exit 1
cd bench || exit 1
export RUSTFLAGS='-C target-cpu=x86-64-v2'
cargo build --release --offline >&2 || exit 1
target/release/measure ../examples/many-sweeps.ngc ../examples/grid.ngc ../examples/rows.ngc
