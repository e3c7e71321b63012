#!/bin/sh
# Times the port against the original Rust on the same sheets, alternating in one process: speed.sh [SET [SHEETS]]. See ../docs/PERFORMANCE.md.
# speed.sh --count SET [SHEETS]: counts instructions by callgrind instead, for two calls of each program on every sheet.
# Needs rt and cargo. HEMOKATU_LIB may name a folder with libhemokatu.a; else rt builds it.
set -e
cd "$(dirname "$0")"
./same.sh
[ -n "$HEMOKATU_LIB" ] || (cd ../crates/hemokatu && rt lib)
cargo build --release --offline --quiet --package speed
target=${CARGO_TARGET_DIR:-target}
if [ "$1" != --count ]; then
    exec "$target/release/speed" "$@"
fi
shift
for call in hemokatu_decode hemokatu_judge '*Decoder::decode'; do
    printf '%s: ' "$call"
    valgrind --tool=callgrind --callgrind-out-file="$target/callgrind.out" --toggle-collect="$call" "$target/release/speed" twice "$@" 2>&1 | sed -n 's/.*Collected : \([0-9]*\).*/\1 instructions/p'
done
