#!/bin/sh
# Removes what install.sh of this release installed, and no folder. usage: uninstall.sh PREFIX   (/usr/local, say)
set -eu
if [ $# -ne 1 ] || [ -z "$1" ]; then
    echo "usage: uninstall.sh PREFIX" >&2
    exit 2
fi
from=$1
rm -f "$from/bin/twkb_tool" "$from/share/man/man1/twkb_tool.1"
rm -f "$from/share/bash-completion/completions/twkb_tool" "$from/share/zsh/site-functions/_twkb_tool"
rm -f "$from/include/twkb.h" "$from/lib/libtwkb.a" "$from/lib/libtwkb.so.0" "$from/lib/libtwkb.so" "$from/lib/pkgconfig/twkb.pc"
echo "removed from $from"
