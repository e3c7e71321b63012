#!/bin/sh
# Makes a release folder, with which a host machine needs no rt: see usage and docs/RELEASE.md.
set -u
me=release.sh
root=$(dirname -- "$(dirname -- "$(realpath -- "$0")")") || exit 2
# shellcheck source=tools/building.sh
. "$root/tools/building.sh"

usage() {
    cat <<'END'
usage: release.sh [--gate FILE] FOLDER

Writes a release to FOLDER, which must not be there: library, header, files for pkg-config and CMake, the Rust crate,
licences, checksums, and the output of the gate. The gate is run (.ci/run: what no run on this machine has passed is
proved from nothing, all of it in some tens of minutes), or its output is taken from FILE, if that is newer than every
source; the release says which.
It needs cc, and the toolchain's rt on the path.

Ends with 0 when the folder is made, 1 if the gate has not passed, 2 for anything else.
END
}

gate=
case ${1:-} in
-h | --help) usage; exit 0 ;;
--gate)
    [ $# -ge 2 ] || { usage >&2; exit 2; }
    gate=$2
    shift 2
    ;;
esac
case ${1:-} in '' | -*) usage >&2; exit 2 ;; esac
[ $# -eq 1 ] || { usage >&2; exit 2; }
folder=$(realpath -m -- "$1")
[ ! -e "$folder" ] || { say "$folder is there already"; exit 2; }
mkdir -p -- "$(dirname -- "$folder")" || exit 2
for tool in cc rt; do command -v "$tool" >/dev/null || { say "$tool is not on the path"; exit 2; }; done

! other_toolchain || { say "rt is $toolchain, not the $pinned of TOOLCHAIN"; exit 2; }

# One version everywhere.
number=$(sed -n 's/^#define HEMOKATU_VERSION \([0-9]*\).*/\1/p' "$root/include/hemokatu.h")
version=$((number / 10000)).$((number / 100 % 100)).$((number % 100))
crate=$(sed -n 's/^version = "\(.*\)"/\1/p' "$root/rust/Cargo.toml")
[ "$version" = "$crate" ] || { say "the header has version $version, and the crate $crate"; exit 2; }

# What it is made from. A copy without git has no commit to name.
sources="a copy without git"
if top=$(git -C "$root" rev-parse --show-toplevel 2>/dev/null) && [ "$top" = "$root" ]; then
    [ -z "$(git -C "$root" status --porcelain)" ] || { say "there are changes that are not committed"; exit 2; }
    sources="commit $(git -C "$root" rev-parse HEAD)"
fi

make_own
new=$own/release
mkdir -p "$new/lib/pkgconfig" "$new/lib/cmake/hemokatu" "$new/include" "$new/rust" || exit 2

# The gate.
if [ -n "$gate" ]; then
    [ -r "$gate" ] || { say "$gate cannot be read"; exit 2; }
    ! older "$gate" "$root"/crates/*/* "$root/crates.txt" || { say "$gate is older than crates/: it is the output for other sources"; exit 1; }
    say "takes the output of the gate from $gate"
    kept="kept output, taken as it was given"
    cp -- "$gate" "$own/said" || exit 2
else
    say "runs the gate: rt ci proves what no run on this machine has passed"
    kept="run for this release"
    "$root/.ci/run" >"$own/said" 2>"$own/complained"
    status=$?
    [ "$status" -eq 0 ] || { tail -n 20 "$own/said" "$own/complained" >&2; say "the gate ended with status $status"; exit 1; }
fi
tally=$(tail -n 1 "$own/said")
printf '%s\n' "$tally" | grep -Eqx '[1-9][0-9]* passed, 0 failed' ||
    { say "the gate has not passed: its last line is '$tally', not 'N passed, 0 failed'"; exit 1; }
! grep -Eq '^rt: ok;.*, [1-9][0-9]* bad(;|$)' "$own/said" || { say "the gate has not passed: there are bad must-fail edits"; exit 1; }
{
    echo "hemokatu $version, $sources"
    echo "toolchain: $toolchain"
    echo "rt ci, $kept:"
    echo
    cat "$own/said"
} >"$new/GATE.txt"

# The library of these sources, whatever HEMOKATU_LIB says.
HEMOKATU_LIB=
take_library
cp "$library" "$new/lib/" && cp "$root/include/hemokatu.h" "$new/include/" || exit 2
cp "$root/LICENSE" "$root/NOTICE" "$new/" && cp "$root/docs/RELEASE.md" "$new/README.md" || exit 2
cp -R "$root/rust/Cargo.toml" "$root/rust/Cargo.lock" "$root/rust/build.rs" "$root/rust/CHANGELOG.md" "$root/rust/src" "$new/rust/" || exit 2
cat >"$new/lib/pkgconfig/hemokatu.pc" <<END
prefix=\${pcfiledir}/../..
libdir=\${prefix}/lib
includedir=\${prefix}/include

Name: hemokatu
Description: Matches OpenLR references to roads, with a proof
Version: $version
Libs: -L\${libdir} -lhemokatu
Cflags: -I\${includedir}
END
cat >"$new/lib/cmake/hemokatu/hemokatu-config.cmake" <<'END'
get_filename_component(_hemokatu "${CMAKE_CURRENT_LIST_DIR}/../../.." ABSOLUTE)
if(NOT TARGET hemokatu::hemokatu)
  add_library(hemokatu::hemokatu STATIC IMPORTED)
  set_target_properties(hemokatu::hemokatu PROPERTIES
    IMPORTED_LOCATION "${_hemokatu}/lib/libhemokatu.a"
    IMPORTED_LINK_INTERFACE_LANGUAGES C
    INTERFACE_INCLUDE_DIRECTORIES "${_hemokatu}/include")
endif()
unset(_hemokatu)
END
cat >"$new/lib/cmake/hemokatu/hemokatu-config-version.cmake" <<END
# Before 1.0 another minor version may have other calls.
set(PACKAGE_VERSION $version)
string(REGEX MATCH "^[0-9]+\\\\.[0-9]+" _wanted "\${PACKAGE_FIND_VERSION}")
if(_wanted STREQUAL "${version%.*}" AND NOT PACKAGE_FIND_VERSION VERSION_GREATER PACKAGE_VERSION)
  set(PACKAGE_VERSION_COMPATIBLE TRUE)
  if(PACKAGE_FIND_VERSION VERSION_EQUAL PACKAGE_VERSION)
    set(PACKAGE_VERSION_EXACT TRUE)
  endif()
endif()
unset(_wanted)
END

# The folder is tried: the example host is built with it alone, and answers the samples.
sed 's|"../include/hemokatu.h"|<hemokatu.h>|' "$root/examples/desk.c" >"$own/desk.c"
cc -std=c11 -Wall -Wextra -pedantic -Werror -O2 -I"$new/include" -o "$own/desk" "$own/desk.c" -L"$new/lib" -lhemokatu ||
    { say "the host cannot be built with the release"; exit 2; }
for name in s1 legs refused_4; do
    "$own/desk" --list "$root/sheets/$name.sheet" | cmp -s - "$root/sheets/$name.answer" ||
        { say "the release answers sheets/$name.sheet otherwise than sheets/$name.answer"; exit 2; }
done

(cd "$new" && find . -type f | sed 's|^\./||' | LC_ALL=C sort | tr '\n' '\0' | xargs -0 sha256sum) >"$own/sums" || exit 2
mv "$own/sums" "$new/SHA256SUMS"
chmod -R u=rwX,go=rX "$new"
# whole or not at all, also from another file system
if ! { cp -R "$new" "$folder.part" && mv "$folder.part" "$folder"; }; then
    rm -rf "$folder.part"
    say "$folder cannot be written"
    exit 2
fi
say "made $folder: hemokatu $version, $sources, gate: $tally ($kept)"
