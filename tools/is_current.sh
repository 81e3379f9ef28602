#!/bin/sh
# Whether FILE is built, of the crates as they are, and no other of its sources is newer: then the status is 0.
# usage: tools/is_current.sh FILE [SOURCE..]
# What builds FILE writes the sum of the crates (tools/sources.sh) to FILE.sources.
set -eu
file=$1
shift
[ -f "$file" ] || exit 1
[ "$(cat "$file.sources" 2> /dev/null)" = "$("$(dirname "$0")/sources.sh")" ] || exit 1
# Without a path find would look at all files here.
[ $# = 0 ] || [ -z "$(find "$@" -newer "$file" -print -quit)" ]
