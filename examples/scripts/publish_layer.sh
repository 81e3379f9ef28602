#!/bin/sh
# Writes the rows of a table as a layer by PostGIS, and their ids. FILE is replaced only if all of it is right, and stays otherwise.
# usage: publish_layer.sh [OPTION ..] TABLE FILE [PROGRAM]   (PROGRAM is twkb_tool by default; psql reads its PG variables)
#   --id COLUMN       whose values are distinct and not null; id by default
#   --geom COLUMN     a geometry or a geography; geom by default. Rows in which it is null are left out, and counted
#   --precision N     decimals of X and Y, from -7 to 7; 4 by default
#   --precision-z N, --precision-m N    decimals of Z and of M, from 0 to 7; 0 by default
#   --boxes WHICH     the blobs that get a size and a box: shapes (all but points, the default), all or none
#   --allow-empty     publish a layer without any blob, too
# Names are as in SQL: coast, public.coast, "Coast lines". A link as FILE is followed. The new file has the owner and mode of the old one.
# The ids are in FILE.ids/SUM, where SUM is the SHA-256 of the layer: line K + 1 has the id of blob K. They are there before the layer
# is, and stay until it was replaced twice. So a reader of the layer finds its ids by its bytes, or else reads it again.
# The exit status is 0 if FILE is the new layer, 1 if twkb_tool refuses it, 2 for a bad command line, and 3 for anything else: rows that
# can't be published, a query that failed or returned something unexpected. Standard error says why.
set -eu

usage() {
    echo "publish_layer.sh: $1" >&2
    sed -n '3,9s/^# //p' "$0" >&2
    exit 2
}

unpublished() {
    echo "publish_layer.sh: $file stays as it was: $1" >&2
    exit 3
}

# The names are put into the query as they are, so anything else than a name ends here.
named() {
    part='([A-Za-z_][A-Za-z0-9_]*|"([^"]|"")+")'
    printf %s "$2" | tr '\n' ';' | LC_ALL=C grep -qxE "$part(\\.$part){0,$1}" || usage "$2 is no name as in SQL"
}

id=id geom=geom xy=4 z=0 m=0 boxes=shapes empty=
while [ $# -gt 0 ]; do
    case $1 in
        --allow-empty) empty=yes && shift && continue ;;
        --*) [ $# -gt 1 ] || usage "$1 wants a word after it" ;;
        *) break ;;
    esac
    case $1=$2 in
        --id=*) id=$2 ;;
        --geom=*) geom=$2 ;;
        --precision=[0-7] | --precision=-[1-7]) xy=$2 ;;
        --precision-z=[0-7]) z=$2 ;;
        --precision-m=[0-7]) m=$2 ;;
        --boxes=shapes | --boxes=all | --boxes=none) boxes=$2 ;;
        *) usage "$1 $2 is no option" ;;
    esac
    shift 2
done
[ $# -eq 2 ] || [ $# -eq 3 ] || usage "a table and a file are wanted"
table=$1 file=$2 program=${3:-twkb_tool}
named 1 "$table"
named 0 "$id"
named 0 "$geom"
case $boxes in
    shapes) sized="ST_GeometryType(geom) <> 'ST_Point'" ;;
    all) sized=true ;;
    none) sized=false ;;
esac

real=$(readlink -f -- "$file") || unpublished "there is no folder for it"
file=$real
[ ! -e "$file" ] || [ -f "$file" ] || unpublished "it is no file"

# This folder is on the disk of the layer, so that moving a file is one step. One run at a time has it: a killed run's files go.
ids=$file.ids query=
mkdir -p -- "$ids" && [ -r "$ids" ] || unpublished "$ids can't be made"
exec 9< "$ids"
flock -n 9 || unpublished "another run is publishing it"
part=$ids/.publish
trap 'rm -rf -- "$part"; rmdir -- "$ids" 2> /dev/null || true' EXIT
trap 'kill $query 2> /dev/null || true; exit 143' HUP INT TERM
rm -rf -- "$part" && mkdir -m 700 -- "$part" || unpublished "there is no place in $ids"

# A line is a row: its blob and its id, or a word in place of the blob. The query sees one state of the table. What it converts is
# 9.2e18 at most, which is below 2^63: NaN and infinity are above every number here, and what a vertex lacks is null.
PGCLIENTENCODING=UTF8 psql -X -q -At -F ' ' -v ON_ERROR_STOP=1 > "$part/told" 9<&- << SQL &
begin transaction isolation level repeatable read, read only;
select case
        when geom is null then 'none'
        when id is null then '!an id is null'
        when count(geom) over (partition by id) > 1 then '!several rows have one id:'
        when id::text ~ E'[\r\n]' then '!an id has a line break:'
        when exists (
            select from ST_DumpPoints(geom) as vertex where not (
                abs(ST_X(vertex.geom)) < 9.2e18 / 10.0 ^ $xy and abs(ST_Y(vertex.geom)) < 9.2e18 / 10.0 ^ $xy
                and abs(ST_Z(vertex.geom)) < 9.2e18 / 10.0 ^ $z and abs(ST_M(vertex.geom)) < 9.2e18 / 10.0 ^ $m))
            then '!a coordinate is not finite, or beyond 64 bits at this precision:'
        else encode(ST_AsTWKB(geom, $xy, $z, $m, $sized, $sized), 'hex') end,
    translate(id::text, E'\r\n', '  ')
    from (select $id as id, ($geom)::geometry as geom from $table) as feature
    order by id;
\echo rows :ROW_COUNT
commit;
SQL
query=$!
wait $query || unpublished "psql ended with status $?"
query=

# A psql that ended early, and said nothing of it, gave no number of rows, or fewer rows.
told=$(($(wc -l < "$part/told") - 1))
[ "$(tail -n 1 "$part/told")" = "rows $told" ] || unpublished "psql gave $told rows, and then not their number"
sed '$d' "$part/told" > "$part/rows"
wrong=$(grep -ac '^!' "$part/rows") || true
if [ "$wrong" -gt 0 ]; then
    grep -a '^!' "$part/rows" | head -n 5 | sed 's/^!/publish_layer.sh: /' >&2
    unpublished "$wrong rows can't be published"
fi
grep -av '^none ' "$part/rows" > "$part/blobs" || [ $? -eq 1 ] || unpublished "grep ended with status $?"
rows=$(wc -l < "$part/blobs")
[ "$rows" -gt 0 ] || [ "$empty" ] || unpublished "no row of $table has a geometry, and --allow-empty isn't given"

# What xxd doesn't understand it passes over without a word. So it is looked for before.
wrong=$(LC_ALL=C grep -anvxE -m 1 '([0-9a-f]{2})+ .*' "$part/blobs" | cut -d : -f 1)
[ -z "$wrong" ] || unpublished "row number $wrong is no blob in hexadecimal digits and an id"
cut -d ' ' -f 1 "$part/blobs" | xxd -r -p > "$part/layer" || unpublished "xxd ended with status $?"
cut -d ' ' -f 2- "$part/blobs" > "$part/ids" || unpublished "cut ended with status $?"

status=0
said=$("$program" check "$part/layer") || status=$?
[ $status -ne 1 ] || { echo "$said"; exit 1; }
[ $status -eq 0 ] || unpublished "$program ended with status $status"
[ "${said%% vertices=*}" = "ok blobs=$rows" ] || unpublished "the table has $rows rows with a geometry, and the layer is: $said"

new=$(sha256sum < "$part/layer" | cut -c 1-64) old=$new
if [ -e "$file" ]; then
    old=$(sha256sum < "$file" | cut -c 1-64)
    chown --reference="$file" -- "$part/layer" "$part/ids" && chmod --reference="$file" -- "$part/layer" "$part/ids" ||
        unpublished "its owner and mode can't be kept"
fi
sync -- "$part/layer" "$part/ids" || unpublished "the disk doesn't take it"
mv -f -- "$part/ids" "$ids/$new" && mv -f -- "$part/layer" "$file" || unpublished "it can't be moved there"
for one in "$ids"/*; do
    case ${one##*/} in
        "$new" | "$old" | *[!0-9a-f]*) ;;
        *) rm -f -- "$one" ;;
    esac
done
echo "$said"
[ "$told" -eq "$rows" ] || echo "publish_layer.sh: $((told - rows)) rows have no geometry, and so no blob" >&2
