#!/bin/sh
# Builds the library and times the judge.
set -e
cd "$(dirname "$0")/.."
(cd crates/hemokatu && rt lib >/dev/null)
mkdir -p target
cc -O3 -falign-loops=64 -o target/bench-judge bench/judge.c crates/hemokatu/out/libhemokatu.a
target/bench-judge
