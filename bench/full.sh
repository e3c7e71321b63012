#!/bin/sh
# Builds the library and decodes full-size sheets.
set -e
cd "$(dirname "$0")/.."
(cd crates/hemokatu && rt lib >/dev/null)
mkdir -p target
cc -O2 -pthread -o target/bench-full bench/full.c crates/hemokatu/out/libhemokatu.a
target/bench-full
