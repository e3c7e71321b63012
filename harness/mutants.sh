#!/bin/sh
# Mutation check: makes each change of mutants/list.txt in a copy of the published files. The comparison with the port must notice it, and so must the stored cases of crate replay.
# mutants.sh [FIRST [LAST]] tries those of the list. A change that no answer can show says why in the list, and must not be noticed.
# Needs libhemokatu.a as run.sh does. SHEETS (100000) is the number of well-formed sheets; of full size there are a hundredth.
# CASES names another file of stored cases, MOST (3) says how many of them that differ are looked for.
# With MARKS=FOLDER the port is left out, and the numbers of those cases are kept there, a file for each change.
cases=${CASES:+$(realpath "$CASES")}
marks=${MARKS:+$(realpath "$MARKS")}
cd "$(dirname "$0")" || exit 1
./same.sh || exit 1
cases=${cases:-$(realpath ../crates/replay/data/changes.bin)}
sheets=${SHEETS:-100000}
export HEMOKATU_LIB="${HEMOKATU_LIB:-$(cd .. && pwd)/crates/hemokatu/out}"
target=$(mkdir -p "${CARGO_TARGET_DIR:-target}" && cd "${CARGO_TARGET_DIR:-target}" && pwd)
cargo build --release --offline --quiet --package mutants || exit 1
mutants=$target/release/mutants
list=$PWD/mutants/list.txt
work=$target/mutants
rm -rf "$work/harness"
mkdir -p "$work/harness"
cp -r Cargo.* stand_ins road_network openlr_decoder sheets oracle compare mutants speed "$work/harness"
export CARGO_TARGET_DIR="$work/target" CARGO_PROFILE_RELEASE_OPT_LEVEL=1 CARGO_INCREMENTAL=1
programs=$work/target/release
bins="--bin sample --bin compare"
[ -z "$marks" ] || bins="--bin sample"

# What the comparison says of the copy: noticed, and by what, or nothing.
compared() {
    for kind in "well-formed $sheets" "full $((sheets / 100))" "damaged $sheets"; do
        (ulimit -v 8000000; "$programs/compare" $kind 1 first) >"$work/out" 2>&1
        case $? in
            0) ;;
            1) sed -n 's/^\(.*\) sheets: \([0-9]*\) compared.*/noticed at sheet \2, \1/p' "$work/out"; return ;;
            124) echo "noticed: does not end, ${kind% *}"; return ;;
            *) echo "noticed: ends by itself, ${kind% *}"; return ;;
        esac
    done
    echo "not noticed"
}

# The same of the stored cases.
stored() {
    "$programs/sample" marks "$cases" "${MOST:-3}" >"$work/marks" || { echo "ends by itself"; return; }
    [ -z "$marks" ] || cp "$work/marks" "$marks/$number"
    case $(wc -l <"$work/marks") in
        0) echo "not noticed" ;;
        *) echo "noticed by stored cases" $(cat "$work/marks") ;;
    esac
}

# Both of them; the stored cases alone for marks.
try() {
    if ! (cd "$work/harness" && cargo build --release --offline --quiet $bins 2>"$work/errors"); then
        echo "does not build"
        return
    fi
    by_cases=$(stored)
    [ -z "$marks" ] || { echo "$by_cases"; return; }
    by_port=$(compared)
    case "$by_port,$by_cases" in
        noticed*,noticed*) echo "$by_port; $by_cases" ;;
        "not noticed,not noticed") echo "not noticed" ;;
        *) echo "by the port: $by_port; by the stored cases: $by_cases" ;;
    esac
}

noticed=0 unseen=0 wrong=0
number=${1:-1}
last=${2:-$("$mutants" "$list")}
while [ "$number" -le "$last" ]; do
    rm -rf "$work/harness/original"
    cp -r original "$work/harness"
    "$mutants" "$list" "$number" "$work/harness/original" || exit 1
    about=$("$mutants" "$list" "$number")
    reason=$(echo "$about" | sed -n 3p)
    said=$(try)
    case "$said,$reason" in
        noticed*,) noticed=$((noticed + 1)) ;;
        "not noticed",?*) unseen=$((unseen + 1)) said="not to be seen: $reason" ;;
        *) wrong=$((wrong + 1)) said="UNEXPECTED: $said" ;;
    esac
    echo "$number $(echo "$about" | sed -n 1p) $(echo "$about" | sed -n 2p): $said"
    number=$((number + 1))
done
echo "$noticed noticed, $unseen not to be seen, $wrong unexpected"
[ "$wrong" -eq 0 ]
