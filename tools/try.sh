#!/bin/sh
# shellcheck disable=SC2016,SC2086
# Tries the commands with a faked rt: try.sh. Needs cc, and HEMOKATU_LIB must name a folder with libhemokatu.a.
# What hosts do with a release is tried with pkg-config, cmake and cargo, where they are there.
# The fake proves nothing: it prints rt's lines, and its list program is the C host with --list.
# Prints a line for each thing tried; the last is `N tried, M wrong`. Ends with 0 if none is wrong.
set -u
here=$(dirname -- "$(dirname -- "$(realpath -- "$0")")")
library=$(realpath -- "${HEMOKATU_LIB:?must name a folder with libhemokatu.a}")/libhemokatu.a
[ -r "$library" ] || { echo "no $library" >&2; exit 2; }
unset HEMOKATU_LIB
# another user must reach it
room=$(mktemp -d) || exit 2
chmod 755 "$room"
trap 'chmod -R u+w "$room"; rm -rf "$room"' EXIT

clone="$room/a clone"
mkdir "$clone" "$room/bin" "$room/else where"
(cd "$here" && tar cf - --exclude=./target --exclude=./rust/target --exclude=./harness/target --exclude='./crates/*/out' --exclude=./.git .) | (cd "$clone" && tar xf -)
cc -std=c11 -O2 -o "$room/desk" "$here/examples/desk.c" "$library" || exit 2
cp "$library" "$room/libhemokatu.a"
cat >"$room/bin/rt" <<END
#!/bin/sh
[ "\$1" != version ] || { cat "$room/version"; exit; }
echo "\$*" >>"$room/calls"
[ ! -e "$room/fails" ] || { echo "fn model::one: not proved"; echo "logic=not-proved functions=1"; exit 1; }
proved() { echo "rt: chose --jobs 1 for \$1"; echo "logic=proved functions=1 sum=0"; }
case "\$(basename "\$PWD") \$*" in
"roadlist run")
    grep -q . || exit 2
    proved model
    sleep 1
    proved decoder
    sleep 1
    proved roadlist
    mkdir -p out
    printf '#!/bin/sh\nexec "%s" --list -\n' "$room/desk" >out/roadlist
    chmod +x out/roadlist
    echo "rt: running out/roadlist; to give it other input, run that file yourself"
    echo "path 1" ;;
"hemokatu lib")
    proved hemokatu
    mkdir -p out
    cp "$room/libhemokatu.a" out ;;
"a clone ci")
    rm -rf crates/*/out
    echo "rt: model proved"
    cat "$room/ok"
    cat "$room/tally" ;;
*) exit 2 ;;
esac
END
chmod +x "$room/bin/rt"
cp "$clone/TOOLCHAIN" "$room/version"
PATH=$room/bin:$PATH
[ "$(command -v rt)" = "$room/bin/rt" ] || exit 2
calls() { if [ -e "$room/calls" ]; then wc -l <"$room/calls"; else echo 0; fi; }

tried=0 wrong=0
# Runs a command and holds its status, a text on its standard output and one on its standard error to what is expected.
try() { # NAME STATUS OUT ERR WORD...
    name=$1 status=$2 out=$3 err=$4
    shift 4
    "$@" >"$room/out" 2>"$room/err" <"${input:-/dev/null}"
    got=$?
    tried=$((tried + 1))
    if [ "$got" -eq "$status" ] && holds "$room/out" "$out" && holds "$room/err" "$err"; then
        echo "ok: $name"
    else
        wrong=$((wrong + 1))
        echo "WRONG: $name: status $got, not $status, or '$out' or '$err' is not there:"
        sed 's/^/    /' "$room/out" "$room/err"
    fi
}
holds() { # FILE TEXT; an empty text is that of an empty file
    if [ -z "$2" ]; then [ ! -s "$1" ]; else grep -qF -- "$2" "$1"; fi
}
# Runs a command, which must not say this on standard error.
silent() { # NAME ERR WORD...
    name=$1 err=$2
    shift 2
    "$@" >"$room/out" 2>"$room/err" </dev/null
    tried=$((tried + 1))
    if grep -qF -- "$err" "$room/err"; then
        wrong=$((wrong + 1))
        echo "WRONG: $name: it says '$err'"
    else
        echo "ok: $name"
    fi
}
# So many calls of rt up to now.
called() { # NAME COUNT
    tried=$((tried + 1))
    if [ "$(calls)" -eq "$2" ]; then echo "ok: $1"; else wrong=$((wrong + 1)); echo "WRONG: $1: $(calls) calls of rt, not $2"; fi
}

cd "$room/else where" || exit 2
d="$clone/decode.sh"
# arguments, before anything is built
try 'help' 0 'usage: decode.sh' '' "$d" --help
try 'an option that is not there' 2 '' 'no such option: --fast' "$d" --fast
try 'two sheets' 2 '' 'one sheet at a time' "$d" a b
try 'no such file' 2 '' 'x y.sheet: there is no such file' "$d" 'x y.sheet'
try 'a folder' 2 '' 'a folder, not a sheet' "$d" "$clone/sheets"
try 'an empty name' 2 '' 'there is no such file' "$d" ''
called 'nothing was built' 0
touch "$room/fails"
try 'a build that fails' 2 '' 'rt run in crates/roadlist failed; target/roadlist.log' "$d"
try 'what failed is said' 2 '' 'fn model::one: not proved' "$d"
rm "$room/fails" "$room/calls"
# progress
try 'a fresh clone' 0 'primary 700 4049000000000000' 'ten minutes or more' "$d"
try 'and another time' 0 'path 1' '' "$d"
called 'built once' 1
touch "$clone/crates.txt"
try 'sources that are newer' 0 'path 1' 'decoder proved, 1 s in all; the rest took 1 s last time' "$d"
called 'built again' 2
echo 'rattle-kit-0 logic 0' >"$room/version"
touch "$clone/crates.txt"
try 'another toolchain' 0 'path 1' 'rt is rattle-kit-0 logic 0, not the' "$d"
try 'another toolchain: no release' 2 '' 'rt is rattle-kit-0 logic 0, not the' "$clone/tools/release.sh" none
cp "$clone/TOOLCHAIN" "$room/version"
touch "$clone/crates.txt"
silent 'the toolchain that is named' 'of TOOLCHAIN' "$d"
called 'built each time' 4
# sheets
for sheet in "$clone"/sheets/*.sheet; do
    name=$(basename "$sheet" .sheet)
    case $name in
    refused_6 | refused_11) continue ;; # the areas of the faked list program are larger
    esac
    read -r first <"$clone/sheets/$name.answer"
    case $first in path*) status=0 ;; *) status=1 ;; esac
    try "sample $name" $status "$first" '' "$d" "$sheet"
done
cp "$clone/sheets/s2.sheet" 'my sheet.sheet'
cp "$clone/sheets/s2.sheet" ./-s2
try 'a path with a space' 1 'refused 10 0 1' '' "$d" 'my sheet.sheet'
try 'a name that begins with -' 1 'refused 10 0 1' '' "$d" -- -s2
input="$clone/sheets/s1.sheet"
try 'standard input' 0 'path 1' '' "$d" -
input="$clone/sheets/s4.sheet"
try 'a device' 1 'refused 8 0 0' '' "$d" /dev/stdin
input=
try 'no bytes' 1 'refused 1 0 0' '' "$d" -
ln -s "$d" link
ln -s "$room/else where/link" "$room/second link"
try 'a link' 0 'path 1' '' ./link
try 'a link to a link' 0 'path 1' '' "$room/second link"
try 'another shell' 0 'path 1' '' sh "$d"
# large sheets
head -c 49152 /dev/zero >most.sheet
head -c 49153 /dev/zero >large.sheet
try '48 KiB' 1 'refused 3 0 0' '' "$d" most.sheet
try 'above 48 KiB' 1 'refused 3 0 0' '49153 bytes are above the 48 KiB of the list program; examples/desk.sh' "$d" large.sheet
input=/dev/zero
try 'without end' 1 'refused 3 0 0' '8606253 bytes are above' "$d" -
input=
# the host in C
h="$clone/examples/desk.sh"
before=$(calls)
try 'desk: help' 0 'usage: desk.sh' '' "$h" --help
try 'desk: no such file' 2 '' 'there is no such file' "$h" nothing
try 'desk: in words' 0 'road 700, 100.0 m' '' "$h"
try 'desk: a refusal' 1 'no path from point 0 to point 1' '' "$h" 'my sheet.sheet'
try 'desk: as a list' 0 'length 4049000000000000' '' "$h" --list "$clone/sheets/s1.sheet"
try 'desk: what the list program refuses' 0 'path 62' '' "$h" --list "$clone/sheets/refused_6.sheet"
try 'desk: a heap that grows' 0 'road 701' '' "$h" "$clone/sheets/refused_11.sheet"
called 'desk: nothing is built again' "$before"
stamp=$(stat -c %Y "$clone/target/examples/desk")
sleep 1
try 'desk: still there' 0 'road 700' '' "$h"
[ "$stamp" = "$(stat -c %Y "$clone/target/examples/desk")" ] || { wrong=$((wrong + 1)); echo 'WRONG: desk was built again'; }
mkdir 'a lib'
cp "$library" 'a lib'
try 'desk: HEMOKATU_LIB' 0 'road 700' '' env HEMOKATU_LIB="$room" "$h"
try 'desk: HEMOKATU_LIB, relative' 0 'road 700' '' env HEMOKATU_LIB='a lib' "$h"
try 'desk: HEMOKATU_LIB, empty' 0 'road 700' '' env HEMOKATU_LIB= "$h"
try 'desk: HEMOKATU_LIB without a library' 2 '' "and there is no $room/else where/nothing/libhemokatu.a" env HEMOKATU_LIB=nothing "$h"
# a release
r="$clone/tools/release.sh"
echo '7 passed, 0 failed' >"$room/tally"
echo 'rt: ok; handles allowed: none; must-fail edits: 3 refused; every proof and must-fail edit was done in this run' >"$room/ok"
try 'release: help' 0 'usage: release.sh' '' "$r" --help
try 'release: no folder' 2 '' 'usage: release.sh' "$r"
try 'release: a folder that is there' 2 '' 'is there already' "$r" .
try 'release: made' 0 '' 'gate: 7 passed, 0 failed (run for this release)' "$r" 'a release'
try 'release: whole' 0 'lib/libhemokatu.a: OK' '' sh -c 'cd "a release" && sha256sum -c SHA256SUMS'
try 'release: nothing without a sum' 0 '' '' sh -c 'cd "a release" && find . -type f ! -name SHA256SUMS | while read -r f; do grep -qF "  ${f#./}" SHA256SUMS || echo "$f"; done'
try 'release: what the gate said' 0 'rt ci, run for this release' '' cat 'a release/GATE.txt'
try 'release: the licence' 0 'The Hemokatu authors' '' cat 'a release/LICENSE'
for tally in '7 passed, 1 failed' '0 passed, 0 failed' 'rt: FAILED: model' ''; do
    echo "$tally" >"$room/tally"
    try "release: the gate says '$tally'" 1 '' 'the gate has not passed' "$r" none
done
echo '7 passed, 0 failed' >"$room/tally"
mv "$room/ok" "$room/good"
echo 'rt: ok; handles allowed: none; must-fail edits: 3 refused, 1 bad; every proof and must-fail edit was done in this run' >"$room/ok"
try 'release: a bad edit' 1 '' 'bad must-fail edits show nothing' "$r" none
cat "$room/ok" "$room/tally" >kept
try 'release: a bad edit in a kept output' 1 '' 'there are bad must-fail edits' "$r" --gate kept none
mv "$room/good" "$room/ok"
try 'release: none was made' 2 '' 'No such file' ls none
touch "$room/fails"
try 'release: the gate fails' 1 '' 'the gate ended with status 1' "$r" none
rm "$room/fails"
printf 'rt: ok\n12 passed, 0 failed\n' >kept
before=$(grep -c '^ci' "$room/calls")
try 'release: a kept output' 0 '' 'gate: 12 passed, 0 failed (kept output, taken as it was given)' "$r" --gate kept kept.release
[ "$before" = "$(grep -c '^ci' "$room/calls")" ] || { wrong=$((wrong + 1)); echo 'WRONG: the gate was run all the same'; }
touch -d '1 hour ago' kept
try 'release: a kept output of other sources' 1 '' 'it is the output for other sources' "$r" --gate kept none
try 'release: no such output' 2 '' 'nothing cannot be read' "$r" --gate nothing none
# a host with the release, and without rt
rm -r kept.release kept
mv 'a release' "$room/hemokatu 0"
cat >host.c <<'END'
#include <hemokatu.h>
#include <stdio.h>
int main(void) {
    printf("%d %u\n", HEMOKATU_VERSION, (unsigned)hemokatu_version());
    return hemokatu_judge(0, 0).number != HEMOKATU_SHORT;
}
END
number=$(sed -n 's/^#define HEMOKATU_VERSION //p' "$clone/include/hemokatu.h")
if command -v pkg-config >/dev/null; then
    try 'host: pkg-config' 0 "$number $number" '' env PKG_CONFIG_PATH="$room/hemokatu 0/lib/pkgconfig" sh -c 'eval cc -Wall -Wextra -pedantic -Werror -o linked host.c $(pkg-config --cflags --libs hemokatu) && ./linked'
else
    echo 'not tried: pkg-config'
fi
if command -v cmake >/dev/null; then
    cat >CMakeLists.txt <<'END'
cmake_minimum_required(VERSION 3.10)
project(host C)
find_package(hemokatu 0.2 REQUIRED)
add_executable(host host.c)
target_link_libraries(host PRIVATE hemokatu::hemokatu)
END
    try 'host: cmake' 0 "$number $number" '' sh -c 'cmake -S . -B built -DCMAKE_PREFIX_PATH="$1" >cmake.log && cmake --build built >>cmake.log && built/host' sh "$room/hemokatu 0"
    sed -i 's/hemokatu 0.2/hemokatu 0.1/' CMakeLists.txt
    try 'host: cmake, another version' 1 'Configuring incomplete' 'compatible' cmake -S . -B other -DCMAKE_PREFIX_PATH="$room/hemokatu 0"
else
    echo 'not tried: cmake'
fi
if command -v cargo >/dev/null; then
    mkdir -p host/src host/lib
    cp "$library" host/lib
    printf '[package]\nname = "host"\nversion = "0.1.0"\nedition = "2021"\n[dependencies]\nhemokatu = { path = "%s/rust" }\n[workspace]\n' "$room/hemokatu 0" >host/Cargo.toml
    echo 'fn main() { println!("{} {}", hemokatu::VERSION, hemokatu::library_version()); }' >host/src/main.rs
    cargo="cargo run --quiet --offline -j1 --manifest-path host/Cargo.toml"
    try 'host: cargo' 0 "$number $number" '' $cargo
    try 'host: cargo, HEMOKATU_LIB' 0 "$number $number" '' env HEMOKATU_LIB="$room/hemokatu 0/lib" $cargo
    try 'host: cargo, HEMOKATU_LIB relative' 0 "$number $number" '' env HEMOKATU_LIB=lib $cargo
    try 'host: cargo, HEMOKATU_LIB without a library' 101 '' "which is taken from $room/else where/host, and there is no" env HEMOKATU_LIB=none $cargo
    # the crate of the clone, whose build script calls rt
    rm -rf "$clone"/crates/*/out
    crate() { env "$@" CARGO_TARGET_DIR="$room/crate" cargo build --offline -j1 --manifest-path "$clone/rust/Cargo.toml"; }
    before=$(calls)
    try 'crate: HEMOKATU_LIB' 0 '' 'Finished' crate HEMOKATU_LIB="$room"
    called 'crate: nothing is proved' "$before"
    touch "$room/fails"
    try 'crate: a proof that fails' 101 '' '`rt lib` failed' crate HEMOKATU_LIB=
    rm "$room/fails"
    try 'crate: says that it proves' 0 '' 'proves the decoder and builds it, ten minutes or more. HEMOKATU_LIB=FOLDER names' crate HEMOKATU_LIB=
    before=$(calls)
    try 'crate: and another time' 0 '' 'Finished' crate HEMOKATU_LIB=
    called 'crate: proved once' "$before"
else
    echo 'not tried: cargo'
fi
# a clone that is only read, as another user; the gate has removed what was built
try 'built again' 0 'path 1' 'proves the decoder first' "$d"
try 'built again: desk.sh' 0 'road 700' '' "$h"
chmod -R a+rX "$room"
if [ "$(id -u)" = 0 ]; then
    as() { setpriv --reuid=65534 --regid=65534 --clear-groups "$@"; }
else
    as() { "$@"; }
    chmod -R a-w "$clone"
fi
try 'read only: decode.sh' 0 'path 1' '' as "$d"
try 'read only: a large sheet' 1 'refused 3 0 0' 'examples/desk.sh' as "$d" large.sheet
try 'read only: desk.sh' 0 'road 700' '' as "$h"
try 'read only: another library' 0 'road 700' '' as env HEMOKATU_LIB=../ "$h"
touch "$clone/crates.txt"
try 'read only: an older list program' 0 'path 1' 'it is used as it is' as "$d"
rm -r "$clone/crates/roadlist/out"
try 'read only: no list program' 2 '' "$clone cannot be written to build it" as "$d"
chmod -R u+w "$clone"
# no rt
PATH=$(printf %s "$PATH" | sed "s|^$room/bin:||") && mkdir -p "$room/few" && for c in sh cat dirname realpath find mktemp rm head wc touch mkdir sed env cc; do ln -sf "$(command -v $c)" "$room/few/$c"; done
try 'without rt' 2 '' "the toolchain's rt is not on the path to build it" env PATH="$room/few" "$d"
if command -v cargo >/dev/null; then
    for c in cargo rustc; do ln -sf "$(command -v $c)" "$room/few/$c"; done
    rm -rf "$clone"/crates/*/out
    try 'crate: without rt' 101 '' "put the toolchain's \`rt\` on the path, or HEMOKATU_LIB=FOLDER names" crate HEMOKATU_LIB= PATH="$room/few"
fi

echo "$tried tried, $wrong wrong"
[ "$wrong" -eq 0 ]
