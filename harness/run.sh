#!/bin/sh
# The whole comparison: run.sh N [SEED] compares N well-formed sheets, N damaged ones, N/50 of full size and N/10 pairs for demand 3; charges of 100 N roads; the stored cases of crate replay; and the list program's texts of 40,000 sheets.
# Needs rt and cargo. HEMOKATU_LIB may name a folder with libhemokatu.a, and ROADLIST the list program; else rt builds them.
set -e
count=${1:?run.sh N [SEED]}
seed=${2:-1}
cd "$(dirname "$0")"
./same.sh
[ -n "$HEMOKATU_LIB" ] || (cd ../crates/hemokatu && rt lib)
[ -n "$ROADLIST" ] || (cd ../crates/roadlist && rt run <stdin >/dev/null)
cargo build --release --offline --quiet
programs=${CARGO_TARGET_DIR:-target}/release
for list in changes classes; do
    "$programs/stored" ../crates/replay/data/$list.bin
    "$programs/sample" write sample/$list.txt "$programs/$list.bin"
    cmp "$programs/$list.bin" ../crates/replay/data/$list.bin
done
"$programs/sample" wrong ../sheets "$programs/wrong.bin"
cmp "$programs/wrong.bin" ../crates/replay/data/wrong.bin
"$programs/compare" sizes
"$programs/compare" well-formed "$count" "$seed"
"$programs/compare" damaged "$count" "$seed"
"$programs/compare" full $((count / 50)) "$seed"
"$programs/compare" pairs $((count / 10)) "$seed"
"$programs/charge" $((count * 100)) "$seed"
"$programs/texts" "${ROADLIST:-../crates/roadlist/out/roadlist}" 20000 "$seed"
