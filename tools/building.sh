# Sourced by decode.sh, examples/desk.sh and tools/release.sh, which set `root` to the repository and `me` to their name.
# shellcheck shell=sh disable=SC2154

say() { printf '%s: %s\n' "$me" "$*" >&2; }

# Whether a product is missing, or older than one of its sources: older PRODUCT SOURCE... What rt keeps in out/ is none,
# so of crates/ the sources are "$root"/crates/*/*.
older() {
    [ -e "$1" ] || return 0
    [ -n "$(find -L "$@" -name out -prune -o -newer "$1" -print -quit)" ]
}

# Whether files can be made in target/.
can_write() { mkdir -p "$root/target" 2>/dev/null && [ -w "$root/target" ]; }

# A folder of its own outside the repository, which goes when the script ends. Sets `own`.
own=
make_own() {
    [ -n "$own" ] || own=$(mktemp -d) || { say "no folder for temporary files"; exit 2; }
}
trap '[ -z "$own" ] || rm -rf "$own"' EXIT
trap 'exit 129' HUP
trap 'exit 130' INT
trap 'exit 143' TERM

# The words of a command that decodes one sheet and has a usage. Sets `sheet`; S1 where none is named.
take_arguments() {
    case ${1:-} in
    -h | --help) usage; exit 0 ;;
    --) shift ;;
    -) ;;
    -*) say "no such option: $1"; usage >&2; exit 2 ;;
    esac
    [ $# -le 1 ] || { say "one sheet at a time"; usage >&2; exit 2; }
    take_sheet "${1-$root/sheets/s1.sheet}"
}

# Tests a sheet's name before anything is built, and sets `sheet` to its path. Standard input, and whatever is no plain
# file, is copied: no sheet is longer than 8,606,252 bytes, and of a longer one so many and one more are enough to refuse it.
take_sheet() { # FILE
    sheet=$1
    if [ "$1" = - ]; then
        make_own
        sheet=$own/sheet
        head -c 8606253 >"$sheet" || { say "standard input cannot be read"; exit 2; }
        return
    fi
    [ -e "$1" ] || { say "$1: there is no such file"; exit 2; }
    [ ! -d "$1" ] || { say "$1: a folder, not a sheet"; exit 2; }
    [ -r "$1" ] || { say "$1: it may not be read"; exit 2; }
    if [ ! -f "$1" ]; then
        make_own
        sheet=$own/sheet
        head -c 8606253 <"$1" >"$sheet" || { say "$1: it cannot be read"; exit 2; }
        return
    fi
    sheet=$(realpath -- "$1") || exit 2
}

# Sets `library` to libhemokatu.a: in the folder that HEMOKATU_LIB names, relative to where the script was called, else
# that of rt lib, built if it is older than crates/. Call it before any cd.
take_library() {
    if [ -n "${HEMOKATU_LIB:-}" ]; then
        library=$(realpath -m -- "$HEMOKATU_LIB")/libhemokatu.a
        [ -r "$library" ] || { say "HEMOKATU_LIB is $HEMOKATU_LIB, and there is no $library"; exit 2; }
    else
        library=$root/crates/hemokatu/out/libhemokatu.a
        build hemokatu lib libhemokatu.a
    fi
}

# Runs rt in a crate's folder where its product in out/ is missing or older than crates/: build CRATE COMMAND PRODUCT
# Where that cannot be done, an older product is used as it is.
build() {
    product=crates/$1/out/$3
    older "$root/$product" "$root"/crates/*/* "$root/crates.txt" || return 0
    missing=
    command -v rt >/dev/null || missing="the toolchain's rt is not on the path"
    { can_write && [ -w "$root/crates/$1" ]; } || missing="$root cannot be written"
    if [ -n "$missing" ]; then
        [ -e "$root/$product" ] || { say "there is no $product to use, and $missing to build it"; exit 2; }
        say "$product is older than crates/, and $missing; it is used as it is"
        return
    fi
    prove "$1" "$2" || { say "$product could not be built"; exit 2; }
    # rt leaves alone what has not changed but for its time
    [ -e "$root/$product" ] || { say "rt $2 in crates/$1 wrote no $product"; exit 2; }
    touch "$root/$product"
}

# Whether rt is another toolchain than the one that TOOLCHAIN names. Sets `toolchain` and `pinned`.
other_toolchain() {
    pinned=$(cat "$root/TOOLCHAIN") || exit 2
    toolchain=$(rt version 2>/dev/null) || toolchain="one without a version"
    [ "$toolchain" != "$pinned" ]
}

# Runs rt in a crate's folder, and tells of each crate as it is proved: prove CRATE COMMAND. A program that is run gets
# the crate's stdin. target/proved.CRATE has the seconds to each crate of the last time that all were proved.
prove() {
    log=$root/target/$1.log
    last=$root/target/proved.$1
    input=/dev/null
    [ ! -e "$root/crates/$1/stdin" ] || input=$root/crates/$1/stdin
    total=$(sed -n 's/^all //p' "$last" 2>/dev/null)
    if [ -n "$total" ]; then about="$total s, by the last time"; else about="ten minutes or more"; fi
    ! other_toolchain || say "rt is $toolchain, not the $pinned of TOOLCHAIN: what it proves may differ"
    say "proves the decoder first (rt $2 in crates/$1), which takes $about"
    rm -f "$last.status" "$last.new"
    began=$(date +%s)
    crate=
    { (cd "$root/crates/$1" && rt "$2" <"$input" 2>&1) || echo "$?" >"$last.status"; } | while IFS= read -r line; do
        printf '%s\n' "$line"
        tell "$line"
    done >"$log"
    if [ -e "$last.status" ]; then
        rm -f "$last.status" "$last.new"
        tail -n 20 "$log" >&2
        say "rt $2 in crates/$1 failed; target/$1.log has all that it said"
        return 1
    fi
    # everything stands on model: where it was not proved again, this was no whole time
    if grep -q '^model ' "$last.new" 2>/dev/null; then
        echo "all $(($(date +%s) - began))" >>"$last.new"
        mv "$last.new" "$last"
    fi
    rm -f "$last.new"
}

# A line of rt: it begins a crate, or the crate is proved.
tell() { # LINE
    case $1 in
    'rt: chose --jobs '*' for '*) crate=${1##* } ;;
    'logic=proved '*)
        [ -n "$crate" ] || return
        took=$(($(date +%s) - began))
        echo "$crate $took" >>"$last.new"
        rest=
        before=$(sed -n "s/^$crate //p" "$last" 2>/dev/null)
        [ -z "$total" ] || [ -z "$before" ] || rest="; the rest took $((total - before)) s last time"
        say "$crate proved, $took s in all$rest"
        crate=
        ;;
    esac
}
