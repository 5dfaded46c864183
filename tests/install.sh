#!/usr/bin/env bash
# Installs the library into a folder of its own, builds the example programs elsewhere with what pkg-config says and nothing else, runs them, and uninstalls.
# All from a copy, with an rt that only says that it was called: the library is made again just where the code is newer.
set -euo pipefail
cd "$(dirname "$0")/.."
work=$(mktemp -d)
trap 'rm -rf "$work"' EXIT
places=("DESTDIR=$work/root" PREFIX=/opt/meter LIBDIR=/opt/meter/lib64)
mkdir -p "$work/bin" "$work/copy/target/staticlib"
printf '#!/bin/sh\necho "rt $*" >>"%s/called"\nmkdir -p out && cp "%s/libhost.a" out\n' "$work" "$work" >"$work/bin/rt"
chmod +x "$work/bin/rt"
tar -c --exclude=out Makefile crates crates.txt docs include | tar -x -C "$work/copy"
cp target/staticlib/libhost.a "$work"
cp target/staticlib/libhost.a "$work/copy/target/staticlib"

# made WORDS..: make in the copy.
made() {
    PATH=$work/bin:$PATH make --no-print-directory --silent -C "$work/copy" "${places[@]}" "$@"
}

made install
[ ! -e "$work/called" ] || { echo "different: a library that is newer than the code is made again"; exit 1; }
for changed in crates/host/src/lib.rt crates/host/specs/Lib.antt crates.txt; do
    touch "$work/copy/$changed"
    made install
    made install
    [ "$(cat "$work/called")" = "rt lib --cpu=x86-64" ] || { echo "different: how often the library is made where $changed is newer"; exit 1; }
    rm "$work/called"
done
for page in RULES INTEGRATION; do
    cmp "docs/$page.md" "$work/root/opt/meter/share/doc/pqmeter/$page.md"
done

export PKG_CONFIG_LIBDIR=$work/root/opt/meter/lib64/pkgconfig PKG_CONFIG_SYSROOT_DIR=$work/root
read -ra flags < <(pkg-config --cflags --libs pqmeter)
for program in log convert; do
    cp "examples/host/$program.c" "$work"
    gcc -std=c99 -O2 "$work/$program.c" "${flags[@]}" -o "$work/$program"
done
for recording in worked crusher busy; do
    "$work/log" <"examples/$recording.bin" | cmp - "examples/$recording.txt"
done
printf '\1\0\0\0\3\0\0\0\3\0\0\0\40\3\0\0\0\0\0\0' >"$work/earlier"
"$work/convert" records "$work/earlier" "$work/records"
"$work/convert" records --back "$work/records" "$work/back"
cmp "$work/earlier" "$work/back"
[ "$(stat -c %s "$work/records")" = 28 ] || { echo "different: the length of a converted record"; exit 1; }
printf '#include <stdio.h>\n#include "pq.h"\nint main(void) { puts(PQ_VERSION); return 0; }\n' >"$work/version.c"
gcc "$work/version.c" "${flags[@]}" -o "$work/version"
[ "$("$work/version")" = "$(pkg-config --modversion pqmeter)" ] || { echo "different: the version in pq.h and in pqmeter.pc"; exit 1; }

made uninstall
[ -z "$(find "$work/root" -type f -o -name '*pq*')" ] || { find "$work/root"; echo "different: files are left after uninstall"; exit 1; }
echo "same: installed, linked by pkg-config, uninstalled"
