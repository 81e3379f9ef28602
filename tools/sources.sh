#!/bin/sh
# Prints a sum of all that is proved, and of the kit that proves it: the files of crates/, but what rt makes there, crates.txt and
# HANDLES, and what `rt version` prints. usage: tools/sources.sh
# What builds something writes it beside that, and `make dist` packs nothing of other sources.
set -eu
cd "$(dirname "$0")/.."
kit=$(rt version)
ls -d crates crates.txt HANDLES > /dev/null
{
    find crates crates.txt HANDLES -path 'crates/*/out' -prune -o -type f -print0 | LC_ALL=C sort -z | xargs -0 sha256sum
    printf '%s\n' "$kit"
} | sha256sum | cut -d ' ' -f 1
