#!/bin/sh
# Decodes a sheet with the list program, which is proved and built first where it is not there: see usage.
set -u
me=decode.sh
root=$(dirname -- "$(realpath -- "$0")") || exit 2
# shellcheck source=tools/building.sh
. "$root/tools/building.sh"

usage() {
    cat <<'END'
usage: decode.sh [FILE]

Decodes a sheet and prints its answer: FILE, or - for standard input, or sheets/s1.sheet.
The list program is built where it is missing or older than crates/. A fresh clone proves the decoder for that, ten
minutes or more; what is proved is told on standard error. The toolchain's rt must be on the path.
A sheet above 48 KiB is decoded by the host in C (examples/desk.sh) or in Rust (rust/examples/list.rs).

Ends with 0 for a path, 1 for a refusal, 2 for a file that cannot be read or a build that fails.
END
}

take_arguments "$@"

# What a list program printed, and the status that goes with it.
answer() { # TEXT STATUS
    [ "$2" -le 1 ] || { say "nothing was decoded (status $2)"; exit 2; }
    printf '%s\n' "$1"
    case $1 in
    'path '*) exit 0 ;;
    'refused '*) exit 1 ;;
    *) exit 2 ;;
    esac
}

large() { # BYTES
    above="$1 bytes are above the 48 KiB of the list program"
    if command -v cc >/dev/null; then
        say "$above; examples/desk.sh decodes them"
        "$root/examples/desk.sh" --list "$sheet"
    elif command -v cargo >/dev/null; then
        say "$above; rust/examples/list.rs decodes them"
        take_library
        # a clone that is only read
        [ -w "$root/rust" ] || export CARGO_TARGET_DIR="${CARGO_TARGET_DIR:-$own/cargo}"
        HEMOKATU_LIB=$(dirname -- "$library") cargo run --quiet --release --offline --manifest-path "$root/rust/Cargo.toml" --example list -- "$sheet"
    else
        say "$above; decoding them needs cc or cargo"
        exit 2
    fi
}

bytes=$(wc -c <"$sheet") || exit 2
if [ "$bytes" -gt 49152 ]; then
    make_own
    text=$(large "$bytes")
    status=$?
else
    build roadlist run roadlist
    text=$("$root/crates/roadlist/out/roadlist" <"$sheet")
    status=$?
    case $text in
    'refused 6 '* | 'refused 11 '*) say "the areas of the list program are small; examples/desk.sh lends larger ones" ;;
    esac
fi
answer "$text" "$status"
