#!/bin/sh
# Writes docs/MUST_FAIL.md from the edits' own lines: a section for each crate in the order of crates.txt, a line for each edit.
#   must_fail.sh          writes the page
#   must_fail.sh --check  compares; ends with 1 where the page is stale
set -eu
export LC_ALL=C
cd "$(dirname "$0")/.."

page() {
    cat <<'END'
# Must-fail edits

Written by `tools/must_fail.sh` from the edits' first lines; `tools/must_fail.sh --check` compares. `CONTRIBUTING.md` says how an edit is written.

`rt ci` makes each edit in a copy of its crate, and the checker must refuse the copy. A line says what the edit would let through. A refusal alone says little, since proofs follow the code's text and a harmless change is refused too: that an edit fails at a fact is seen when it is written, and the gate sees that it is still refused. An edit that cannot be applied or read shows nothing: `.ci/run` fails where there is one.
END
    crates=0
    edits=0
    for crate in $(sed -n 's/^\([a-z][a-z0-9_]*\)[ :].*/\1/p' crates.txt); do
        set -- "crates/$crate/must-fail/"*.edit
        [ -e "$1" ] || continue
        printf '\n## %s\n\n| edit | what it would let through | file |\n|---|---|---|\n' "$crate"
        crates=$((crates + 1))
        for edit; do
            reason=$(sed -n '1s/^# *//p' "$edit" | sed 's/|/\\|/g')
            file=$(sed -n 's/^file: *//p' "$edit" | head -n 1)
            if [ -z "$reason" ] || [ -z "$file" ]; then
                echo "must_fail.sh: $edit has no reason in its first line, or no file" >&2
                exit 2
            fi
            label=${edit##*/}
            printf '| `%s` | %s | `%s` |\n' "${label%.edit}" "$reason" "$file"
            edits=$((edits + 1))
        done
    done
    printf '\n%s edits of %s crates.\n' "$edits" "$crates"
}

case ${1:-} in
'')
    new=$(page)
    printf '%s\n' "$new" >docs/MUST_FAIL.md
    ;;
--check)
    new=$(page)
    if ! printf '%s\n' "$new" | cmp -s - docs/MUST_FAIL.md; then
        echo "docs/MUST_FAIL.md is stale: run tools/must_fail.sh" >&2
        exit 1
    fi
    ;;
*)
    echo "usage: must_fail.sh [--check]" >&2
    exit 2
    ;;
esac
