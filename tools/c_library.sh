#!/usr/bin/env bash
# Builds the C library into out/lib: libpeg.a, libpeg.so.1 and the link libpeg.so to it. `rt lib` proves the crate and
# those below it, and compiles it. With --proved, peg_c alone is proved, over the libraries that `rt ci` has proved here.
# The archive needs one object of the kit for memory, whose functions call malloc, realloc and free. Only the names of
# include/peg.h stay visible. Needs gcc and GNU binutils.
set -eu
cd "$(dirname "$0")/.."
kit=$(dirname "$(rt doc)")
top=$PWD
work=$(mktemp -d)
trap 'rm -rf "$work"' EXIT

build() { # the archive of peg_c
  if [ "${1:-}" = --proved ]; then tools/static_library.py; else tools/prove.py peg_c lib "$@"; fi
}
build "$@" > "$work/log" 2>&1 || { tail -n 20 "$work/log" >&2; exit 1; }
grep '^logic=' "$work/log" || true

mkdir "$work/objects"
(cd "$work/objects" && ar x "$top/crates/peg_c/out/libpeg_c.a" && ar x "$kit/c/liblibc_c.a" heap.pic.o)
ld -r -o "$work/peg.o" "$work"/objects/*.o
objcopy --wildcard --keep-global-symbol='peg_*' "$work/peg.o"

mkdir -p out/lib
rm -f out/lib/libpeg.a
ar rcs out/lib/libpeg.a "$work/peg.o"
# The symbols have a version, so that a program is bound to the library with this interface.
echo 'LIBPEG_1 { global: peg_*; local: *; };' > "$work/exports"
gcc -shared -o out/lib/libpeg.so.1 "$work/peg.o" -Wl,-soname,libpeg.so.1 -Wl,--version-script="$work/exports" \
  -Wl,-z,defs -Wl,-z,relro -Wl,-z,now
ln -sf libpeg.so.1 out/lib/libpeg.so
ls -l out/lib
