#!/bin/sh
# Whether FILE may be installed: it has to be built, by make TARGET, of the sources as they are. Else that is said, and the status is 1.
# Without the Rattle kit nobody can know, which is said too, and the status is 0. usage: tools/installable.sh TARGET FILE [SOURCE..]
set -eu
target=$1 file=$2
shift
if ! command -v rt > /dev/null; then
    echo "The Rattle kit is missing, so it isn't known whether $file is of these sources" >&2
elif ! "$(dirname "$0")/is_current.sh" "$@"; then
    echo "$file isn't of these sources, so it isn't installed: make $target" >&2
    exit 1
fi
