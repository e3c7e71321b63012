#!/bin/sh
# Makes the stored cases of crate replay anew: sample/changes.txt and classes.txt, and from them the files of ../crates/replay/data; and wrong.bin there.
# Chosen are of the first 100,000 well-formed and 200,000 damaged seeds, always the smallest sheets first:
# for each change of mutants/list.txt the first three sheets that notice it; of every class of well-formed sheets the first, of damaged ones the first two. S1 to S4 come with the classes.
# Needs cargo alone, and some ten minutes.
cd "$(dirname "$0")" || exit 1
cargo build --release --offline --quiet --package oracle || exit 1
target=${CARGO_TARGET_DIR:-target}
sample=$target/release/sample
work=$target/sample
rm -rf "$work"
mkdir -p "$work/marks"
"$sample" list well-formed 100000 >"$work/well-formed" || exit 1
"$sample" list damaged 200000 >"$work/damaged" || exit 1
"$sample" write "$work/well-formed" "$work/cases.bin" || exit 1
CASES=$work/cases.bin MARKS=$work/marks MOST=3 ./mutants.sh >"$work/log" || exit 1

# A change is a class of the sheets that notice it. Marks are line numbers, from 0 on.
for change in $(ls "$work/marks" | sort -n); do
    awk -F '\t' -v class="change $change" '
        FILENAME == ARGV[1] { marked[$1] = 1; next }
        (FNR - 1) in marked { print $1 "\t" class }
    ' "$work/marks/$change" "$work/well-formed"
done >"$work/changes"

# choose EACH BUT LIST: of every class the first EACH lines of a list, but for those that another list has.
choose() {
    awk -F '\t' -v each="$1" '
        FILENAME == ARGV[1] { chosen[$1] = 1; next }
        { for (i = 2; i <= NF; i++) if (kept[$i]++ < each && !($1 in chosen)) { chosen[$1] = 1; print $1 "\t" $i } }
    ' "$2" "$3" | sort -k2,2n
}

{
    echo "# Sheets that notice a change of mutants/list.txt. Made by sample.sh."
    choose 3 /dev/null "$work/changes"
} >sample/changes.txt
{
    echo "# S1 to S4, and sheets of every class. Made by sample.sh."
    for sheet in 1 2 3 4; do
        printf 'sheet ../sheets/s%s.sheet\tS%s\n' $sheet $sheet
    done
    choose 1 sample/changes.txt "$work/well-formed"
    choose 2 /dev/null "$work/damaged"
} >sample/classes.txt
for list in changes classes; do
    "$sample" write sample/$list.txt ../crates/replay/data/$list.bin && "$sample" count ../crates/replay/data/$list.bin
done
"$sample" wrong ../sheets ../crates/replay/data/wrong.bin
