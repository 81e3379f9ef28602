#!/bin/sh
# Runs the program on the layers beside this script.
# usage: examples/demo.sh [PROGRAM]   (twkb_tool of PATH by default)
set -eu
program=${1:-twkb_tool}
here=$(dirname "$0")
command -v "$program" > /dev/null || {
    echo "demo.sh: there is no $program: install it, or give its path" >&2
    exit 3
}

shown() {
    echo "\$ $*"
    "$@"
}

# Some lines of a command's output. The output is kept first, so that the script ends if the command fails.
some() {
    lines=$1
    shift
    echo "\$ $* | sed -n '$lines'"
    told=$("$@")
    printf '%s\n' "$told" | sed -n "$lines"
}

for layer in points_sized coast_lines_sized coast_collections coast_z; do
    shown "$program" check "$here/$layer.twkb"
done
some 1,3p "$program" list "$here/coast_lines_sized.twkb"
some 1,3p "$program" list "$here/coast_collections.twkb"
echo "# One window: as many bytes are read as are in the headers of all blobs, and in the blobs whose box meets it."
some '$p' "$program" scan "$here/coast_lines_sized.twkb" x=10..30,y=35..45
echo "# Two windows: as many bytes are read as if the blobs whose box misses a window weren't there."
some '/^hits/p' "$program" scan "$here/coast_lines_sized.twkb" x=10..30,y=35..45 x=100..140,y=-10..10
echo "# Z is 7.3 everywhere, so a window above it has no hits."
shown "$program" scan "$here/coast_z.twkb" x=-180..180,y=-90..90,z=8..9
