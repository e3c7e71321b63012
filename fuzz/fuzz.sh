#!/bin/sh
# Fuzzes the library: see docs/FUZZ.md. HEMOKATU_LIB may name a folder with libhemokatu.a; else rt builds it.
#   fuzz.sh COUNT [SEED [FIRST]]      so many calls with sheets of a seed, from call FIRST on
#   fuzz.sh --faulty                  the same with a faulty library: every fault must be noticed
#   fuzz.sh --libfuzzer COUNT [SEED]  the same checks by libFuzzer, on a machine with clang
set -e
cd "$(dirname "$0")/.."
mkdir -p target/fuzz
[ -n "$HEMOKATU_LIB" ] || (cd crates/hemokatu && rt lib) >target/fuzz/lib.log 2>&1 || { cat target/fuzz/lib.log >&2; exit 2; }
lib=${HEMOKATU_LIB:-crates/hemokatu/out}/libhemokatu.a
parts="fuzz/fuzz.c fuzz/random.c fuzz/layout.c fuzz/sheets.c fuzz/damage.c fuzz/areas.c fuzz/check.c"
flags="-std=c11 -Wall -Wextra -Werror -O2 -g -fsanitize=address,undefined -fno-sanitize-recover=all"

plain() {
    cc $flags -o target/fuzz/fuzz $parts "$lib"
    target/fuzz/fuzz "$1" "${2:-1}" "${3:-0}"
}

faulty() {
    wrap="-Wl,--wrap=hemokatu_decode,--wrap=hemokatu_judge,--wrap=hemokatu_sizes"
    # the faults' own accesses are not checked, like the library's
    cc -std=c11 -Wall -Wextra -Werror -O1 -c -o target/fuzz/faulty.o fuzz/faulty.c
    cc $flags $wrap -o target/fuzz/faulty $parts target/fuzz/faulty.o "$lib"
    FAULT=none target/fuzz/faulty 100000 1 >/dev/null
    missed=0
    for fault in $(sed -n 's/.*is("\([a-z-]*\)").*/\1/p' fuzz/faulty.c); do
        if FAULT=$fault target/fuzz/faulty 100000 1 >target/fuzz/faulty.log 2>&1; then
            echo "$fault: missed"
            missed=1
        else
            echo "$fault: $(grep -m 1 '^seed' target/fuzz/faulty.log)"
        fi
    done
    return $missed
}

libfuzzer() {
    rm -rf target/fuzz/corpus
    mkdir -p target/fuzz/corpus
    clang $flags -DLIBFUZZER -fsanitize=fuzzer -o target/fuzz/libfuzzer $parts "$lib"
    target/fuzz/libfuzzer -runs="$1" -seed="${2:-1}" -max_len=16384 -artifact_prefix=target/fuzz/ target/fuzz/corpus sheets
}

case $1 in
--faulty) faulty ;;
--libfuzzer) libfuzzer "${2:?COUNT}" "$3" ;;
*) plain "${1:?COUNT}" "$2" "$3" ;;
esac
