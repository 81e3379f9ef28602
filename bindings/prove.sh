#!/bin/sh
# Proves a static library over the libraries below it, and compiles it. usage: bindings/prove.sh CRATE ARCHIVE [FLAG ..]
# The libraries are taken from out/rlib of their crates, as `make libraries` or `rt ci` left them: rt lib would prove once
# more what rt ci has proved. It doesn't look whether sources have changed since. Wants the Rattle kit, and passes the flags
# on to `rattle build`.
set -eu
top=$(cd "$(dirname "$0")/.." && pwd)
kit=$(dirname "$(rt doc)")
crate=$1 archive=$2
shift 2
for library in $(sed -n "s/^$crate staticlib: //p" "$top/crates.txt"); do
    set -- "$@" --extern "$library=$top/crates/$library/out/rlib/$library.rlib"
done
for folder in "$kit/rlibs" "$top"/crates/*/out/rlib; do
    set -- "$@" -L "dependency=$folder"
done
cd "$top/crates/$crate"
if ! "$kit/bin/rattle" build --crate-name "$crate" --crate-type staticlib src/lib.rt "$@" --links "$crate=" \
    --extern "std=$kit/rlibs/std.rlib" --antt-project "$kit/rattle/logic/antt-project.json" --logic-built "$kit/logic_built" \
    --toolchain "$kit/toolchain" -o "$archive" > "$archive.log" 2>&1; then
    cat "$archive.log" >&2
    exit 1
fi
