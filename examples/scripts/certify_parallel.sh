#!/bin/sh
# Certifies each layer below a folder by GNU parallel, on this machine and on others, and prints a line for each: its path
# and the program's output.
# usage: certify_parallel.sh FOLDER JOBLOG [MACHINE ..]   (twkb_tool is in PATH on each MACHINE too, which ssh reaches)
# Layers are the files named *.twkb. Links to files are followed, and FOLDER may be a link; links to folders below it aren't followed.
# A path with a control character, a double quote, a backslash or bytes that aren't UTF-8 is printed as a string of C: "k\374ste.twkb".
# JOBLOG gets a line for each layer, with its status (Exitval) and its time. The exit status is 0 if all layers are certified, 1 if
# some are refused, 2 for a bad command line, and 3 if some couldn't be judged, if there is no layer at all, or if FOLDER or a folder
# below it can't be read.
set -eu
if [ $# -lt 2 ]; then
    echo "usage: certify_parallel.sh FOLDER JOBLOG [MACHINE ..]" >&2
    exit 2
fi
case $1 in
    -*) folder=./$1 ;;
    *) folder=$1 ;;
esac
log=$2
shift 2

unjudged() {
    echo "certify_parallel.sh: $1" >&2
    exit 3
}

# The list comes first, so that a folder that can't be read is known of. A link to nothing is a layer that can't be read.
lists=$(mktemp -d) judging=
trap 'rm -rf "$lists"' EXIT
trap 'kill $judging 2> /dev/null || true; exit 143' HUP INT TERM
find -H "$folder" -name '*.twkb' \( -xtype f -o -xtype l \) -print0 > "$lists/layers" ||
    unjudged "not all of $folder can be read, so nothing is judged"
[ -s "$lists/layers" ] || unjudged "no layer (*.twkb) is below $folder"

# Another machine is sent a layer at a time, and keeps nothing of it. `:` is this one, whose layers stay where they are.
if [ $# -gt 0 ]; then
    machines=$(IFS=,; echo "$*")
    set -- --sshlogin ":,$machines" --transferfile '{}' --cleanup
fi

# Before each line of a layer comes its path, in Perl.
path='{= my $copy = $_; my $high = utf8::decode($copy) ? "" : "\x80-\xff";
    $_ = "\"$_\"" if s/[\x00-\x1f\x7f"\\$high]/sprintf "\\%03o", ord $&/ge; $_ .= " (not UTF-8)" if $high =}'

# An older log would speak of an older run.
rm -f "$log"
parallel --null --will-cite --tmpdir "$lists" "$@" --joblog "$log" --tagstring "$path" twkb_tool check {} < "$lists/layers" &
judging=$!
wait $judging || true
judging=
[ -f "$log" ] || unjudged "parallel has judged nothing"
layers=$(tr -dc '\000' < "$lists/layers" | wc -c)
told=$(tail -n +2 "$log" | wc -l)
[ "$told" -eq "$layers" ] || unjudged "$told of $layers layers are in $log"
# The status of each layer, and the signal that ended its program, 0 for none.
case "$(tail -n +2 "$log" | cut -f 7,8 | tr '\t' ' ' | sort -u | tr '\n' ',')" in
    '0 0,') ;;
    '1 0,' | '0 0,1 0,') exit 1 ;;
    *) exit 3 ;;
esac
