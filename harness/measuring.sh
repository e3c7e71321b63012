#!/bin/sh
# The example host's measuring against the published spatial.rs: measuring.sh [N] compares N random points and lines, bit for bit.
# Needs cargo.
set -e
cd "$(dirname "$0")"
./same.sh
exec cargo run --release --offline --quiet --manifest-path measuring/Cargo.toml --target-dir "${CARGO_TARGET_DIR:-target}" -- "${1:-1000000}"
