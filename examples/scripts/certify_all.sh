#!/bin/sh
# Certifies each layer below a folder, on all cores, and prints a line for each: its status, its path and the program's output.
# usage: certify_all.sh FOLDER [PROGRAM]   (PROGRAM is twkb_tool by default)
# Layers are the files named *.twkb. Links to files are followed, and FOLDER may be a link; links to folders below it aren't followed.
# A path with a control character, a double quote, a backslash or bytes that aren't UTF-8 is printed as a string of C: "k\374ste.twkb".
# The exit status is 0 if all layers are certified, 1 if some are refused, 2 for a bad command line, and 3 if some couldn't be judged,
# if there is no layer at all, or if FOLDER or a folder below it can't be read.
set -eu
if [ $# -lt 1 ] || [ $# -gt 2 ]; then
    echo "usage: certify_all.sh FOLDER [PROGRAM]" >&2
    exit 2
fi
program=${2:-twkb_tool}
case $1 in
    -*) folder=./$1 ;;
    *) folder=$1 ;;
esac

unjudged() {
    echo "certify_all.sh: $1" >&2
    exit 3
}

# The list comes first, so that a folder that can't be read is known of. A link to nothing is a layer that can't be read.
lists=$(mktemp -d) judging=
trap 'rm -rf "$lists"' EXIT
trap 'kill $judging 2> /dev/null || true; exit 143' HUP INT TERM
find -H "$folder" -name '*.twkb' \( -xtype f -o -xtype l \) -print0 > "$lists/layers" ||
    unjudged "not all of $1 can be read, so nothing is judged"
[ -s "$lists/layers" ] || unjudged "no layer (*.twkb) is below $1"

# A process a layer. Its line is one short write, so lines don't mix.
xargs -0 -n 1 -P "$(nproc)" sh -c '
    status=0
    said=$("$1" check "$2" 2>&1) || status=$?
    [ $status -lt 3 ] || printf %s "$2" | iconv -f UTF-8 -t UTF-8 > /dev/null 2>&1 || said="not judged: the path is not UTF-8"
    case $2 in
        *[!\ -~]* | *\"* | *\\*) path=$(LC_ALL=C.UTF-8 ls -d --quoting-style=c-maybe -- "$2") || path=\"removed\" ;;
        *) path=$2 ;;
    esac
    printf "%s\t%s\t%s\n" "$status" "$path" "$said"
' sh "$program" < "$lists/layers" > "$lists/told" &
judging=$!
wait $judging || unjudged "xargs ended with status $?"
judging=

sort -k 2 "$lists/told"
layers=$(tr -dc '\000' < "$lists/layers" | wc -c)
told=$(grep -ac '^[0-9][0-9]*	' "$lists/told" || true)
[ "$told" -ge "$layers" ] || unjudged "$told of $layers layers have a line"
case "$(grep -ao '^[0-9][0-9]*	' "$lists/told" | sort -u | tr -d '\t\n')" in
    0) ;;
    1 | 01) exit 1 ;;
    *) exit 3 ;;
esac
