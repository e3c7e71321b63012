#!/bin/sh
# The five published files stand here byte for byte: compares their SHA-256 sums.
cd "$(dirname "$0")/original" || exit 1
sha256sum --check --quiet - <<'SUMS' && echo "the five published files are unchanged"
785d34467c71e0c9ffe6531a7d9dda4c9c315f72786d5184ba56a6a89621d216  src/decoder.rs
f87592eb6a5ede6bf845cd065e2f503f2b333d8009612b37d5ce917d78e8fce2  src/candidates.rs
82402bce24d15c1e2be4f9166fbcce185ba9d0826cc7cbb00edae59bf8036593  crates/road-network/src/spatial.rs
dbad15b30f22a6777e3192b81a4614771cea658c17343353620693291af1950b  crates/road-network/src/graph.rs
a410472fde2b6c509701ffe6476e7e106ef1faba061d72298b833f6da60b7d48  crates/road-network/src/road_class.rs
SUMS
