#!/bin/sh
# Decodes a sheet with the example host in C, which is built first where it is older than its sources: see usage.
set -u
me=desk.sh
root=$(dirname -- "$(dirname -- "$(realpath -- "$0")")") || exit 2
# shellcheck source=tools/building.sh
. "$root/tools/building.sh"

usage() {
    cat <<'END'
usage: desk.sh [--list] [FILE]

Decodes a sheet and says the answer in words: FILE, or - for standard input, or sheets/s1.sheet.
--list prints it as the list program does.
HEMOKATU_LIB may name a folder that has libhemokatu.a, relative to where this is called. Else it is built where it is
missing or older than crates/: a fresh clone proves the decoder for that, ten minutes or more. Needs cc.

Ends with 0 for a match, 1 for a refusal, 2 for a file that cannot be read or a build that fails.
END
}

form=
if [ "${1:-}" = --list ]; then
    form=--list
    shift
fi
take_arguments "$@"
take_library

# Programs of a library that is named in another folder, or is not the last one, are built anew.
out=$root/target/examples
same() { [ "$(cat "$out/library" 2>/dev/null)" = "$library" ]; }

compile() { # NAME
    command -v cc >/dev/null || { say "cc is not on the path to build examples/$1.c"; exit 2; }
    cc -std=c11 -Wall -Wextra -pedantic -Werror -O2 -o "$out/$1" "$root/examples/$1.c" "$library" ||
        { say "examples/$1.c could not be built with $library"; exit 2; }
}

if ! same || older "$out/desk" "$root/examples" "$root/include" "$library"; then
    if can_write && mkdir -p "$out" 2>/dev/null && [ -w "$out" ]; then
        rm -f "$out/library"
    else
        # a clone that is only read
        make_own
        out=$own
    fi
    compile s1
    # the header's layout against the sample: S1 is written by its constants
    "$out/s1" | cmp -s - "$root/sheets/s1.sheet" || { say "examples/s1.c does not write sheets/s1.sheet"; exit 2; }
    compile desk
    printf '%s\n' "$library" >"$out/library"
fi
"$out/desk" $form "$sheet"
