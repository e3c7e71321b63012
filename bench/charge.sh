#!/bin/sh
# Builds the library and times a charge.
set -e
cd "$(dirname "$0")/.."
(cd crates/hemokatu && rt lib >/dev/null)
mkdir -p target
cc -O3 -o target/bench-charge bench/charge.c crates/hemokatu/out/libhemokatu.a -lm
target/bench-charge
