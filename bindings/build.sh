#!/bin/sh
# Builds build/bindings/libtwkb.a and libtwkb.so out of the proved static library.
# usage: bindings/build.sh [--second|--sources]
# `make library` proves the libraries below it before.
# With --second it builds build/bindings/second/libtwkb.a alone, by the kit's second compiler, to compare the answers of both.
# With --sources it builds nothing, and prints what the library is made of beside the crates.
# Wants rt of the Rattle kit, ar and gcc. If the libraries are current, nothing is done; with --second they are always built.
set -eu
cd "$(dirname "$0")/.."
top=$PWD
out=$top/build/bindings
mode=${1-}
# What the library is made of beside the crates. tools/dist.sh asks for this list too.
set -- bindings/build.sh bindings/prove.sh bindings/exports.map bindings/c/version.c bindings/c/twkb.h
if [ "$mode" = --sources ]; then
    printf '%s\n' "$@"
    exit 0
fi
kit=$(dirname "$(rt doc)")
backend=llvm
case $mode in
    --second) out=$out/second backend=rattle ;;
    '') ;;
    *) echo "usage: bindings/build.sh [--second|--sources]" >&2; exit 2 ;;
esac
if [ $backend = llvm ] && [ -f "$out/libtwkb.so.0" ] && [ -f "$out/libtwkb.a" ] \
    && tools/is_current.sh "$out/libtwkb.so" "$@"; then
    echo "$out/libtwkb.a and libtwkb.so are current"
    exit 0
fi
mkdir -p "$out"
# A build that is cut short leaves nothing that is taken for current.
rm -f "$out/libtwkb.so.sources"
sources=$("$top/tools/sources.sh")

"$top/bindings/prove.sh" twkb_c "$out/twkb_c.a" --backend $backend
objects=$(mktemp -d)
trap 'rm -rf "$objects"' EXIT
# The crate's code, the kit's three functions over malloc, and the version, which is C, in one archive.
(cd "$objects" && ar x "$out/twkb_c.a" && ar x "$kit/c/liblibc_c.a")
gcc -std=c11 -O2 -fPIC -Wall -Wextra -Werror -c "$top/bindings/c/version.c" -o "$objects/twkb_version.o"
rm -f "$out/libtwkb.a"
ar rcs "$out/libtwkb.a" "$objects"/*.o
echo "built $out/libtwkb.a"
[ $backend = llvm ] || exit 0
# Marked with the processor that the kit's code needs, so that the loader says it where the processor is an older one.
gcc -shared -s -o "$out/libtwkb.so" -Wl,--whole-archive "$out/libtwkb.a" -Wl,--no-whole-archive -Wl,-z,defs -Wl,-z,x86-64-v2 \
    -Wl,--version-script="$top/bindings/exports.map" -Wl,-soname,libtwkb.so.0
# By this name the loader looks for it: the same file under a second name, since the kit's gate takes no symbolic links.
ln -f "$out/libtwkb.so" "$out/libtwkb.so.0"
echo "$sources" > "$out/libtwkb.so.sources"
echo "built $out/libtwkb.so"
