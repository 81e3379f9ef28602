#!/bin/sh
# Builds build/web/twkb_web.wasm, a module of 32 bits with no imports, out of the proved crate. usage: bindings/web/build.sh
# `make page` proves the libraries below it before. Wants the Rattle kit and wasm-opt. If the module is current, nothing is done.
set -eu
top=$(cd "$(dirname "$0")/../.." && pwd)
out=$top/build/web
kit=$(dirname "$(rt doc)")
target=wasm64-unknown-unknown
if ! command -v wasm-opt > /dev/null; then
    echo "wasm-opt is missing: apt-get install binaryen" >&2
    exit 3
fi

if "$top/tools/is_current.sh" "$out/twkb_web.wasm" "$0" "$top/bindings/prove.sh"; then
    echo "$out/twkb_web.wasm is current"
    exit 0
fi
mkdir -p "$out"
# A build that is cut short leaves nothing that is taken for current.
rm -f "$out/twkb_web.wasm.sources"
sources=$("$top/tools/sources.sh")
"$top/bindings/prove.sh" twkb_web "$out/twkb_web.a" --backend llvm --target $target
"$kit/bin/rattle-link" --target $target --toolchain "$kit/toolchain" -o "$out/twkb_web64.wasm" "$out/twkb_web.a"

# The kit compiles for 64 bits. Browsers want a flag for that, and run 32 bits faster.
# The passes after that keep the speed, and make the module shorter: they merge equal functions and blocks, remove assignments and
# branches without effect, share locals between values, and put functions and locals that are used most first. Those of -O2 and -Oz
# inline, which makes the module longer when compressed.
wasm-opt --enable-memory64 --enable-bulk-memory --enable-sign-ext --enable-mutable-globals --enable-nontrapping-float-to-int \
    --memory64-lowering --duplicate-function-elimination --rse --remove-unused-brs --vacuum --reorder-functions --merge-blocks \
    --coalesce-locals --reorder-locals --vacuum \
    "$out/twkb_web64.wasm" -o "$out/twkb_web.wasm"
echo "$sources" > "$out/twkb_web.wasm.sources"
echo "built $out/twkb_web.wasm"
