"""What tests/publish.py tries on a PostGIS: the rows of tables, which of them are refused, and from a blob to its row."""
import os
import re
import subprocess

import plain
from harness import TOP, count

EXAMPLES = os.path.join(TOP, "examples")
PAGE = os.path.join(TOP, "docs", "USAGE.md")
EUROPE = "x=10..30,y=35..45"
# Tables of a point at 1 2 and of what can't be published, with the ids that have to be named.
REFUSED = (
    ("nan", "(6, ST_MakePoint('NaN', 2))", "beyond 64 bits at this precision: 6\n"),
    ("infinity", "(6, ST_MakeLine(ST_MakePoint(1, 2), ST_MakePoint(1, '-Infinity')))", "beyond 64 bits at this precision: 6\n"),
    ("far", "(7, 'LINESTRING(0 0, 1 1e15)'), (8, 'POINT(-1e300 0)')", "precision: 7\npublish_layer.sh: a coordinate is not finite"),
    ("far_z", "(6, 'POINT Z(1 2 9.3e18)')", "beyond 64 bits at this precision: 6\n"),
    ("far_m", "(6, 'POINT M(1 2 1e19)')", "beyond 64 bits at this precision: 6\n"),
    ("member", "(6, 'GEOMETRYCOLLECTION(POINT(1 2), MULTIPOLYGON(((0 0, 1 0, 1 1e17, 0 0))))')", "this precision: 6\n"),
    ("no_id", "(null, 'POINT(3 4)')", "an id is null"),
    ("one_id", "(6, 'POINT(3 4)'), (5, 'POINT(5 6)')", "several rows have one id: 5\n"),
    ("many", ", ".join(f"({number}, 'POINT(1e18 0)')" for number in range(6, 40)), "precision: 10\npublish_layer.sh: /"),
    ("curve", "(6, 'CIRCULARSTRING(0 0, 1 1, 2 0)')", "Unsupported geometry type"),
)
TABLES = """
create extension postgis;
create table coast as select id, ST_GeomFromTWKB(body) as geom from coast_lines_sized;
create table points as select id, ST_GeomFromTWKB(body) as geom from points_sized;
insert into coast values (101, null), (105, null);
create function fails(geometry, int) returns geometry language plpgsql as
$$ begin if $2 > 2000 then raise exception 'half way'; end if; return $1; end $$;
create view half as select id, fails(geom, id) as geom from coast;
create schema gis;
create table gis."Coast ""lines" ("Feature Id" text, "the geom" geography);
insert into gis."Coast ""lines" values (E'a b\\t''c\\\\', 'POINT(1 2)'), ('küste', 'LINESTRING(1 2, 3 4)'), ('', 'POINT(3 4)');
create table kinds as select * from (values
    (1, 'POINT(1 2)'::geometry), (2, 'POINT ZM(1 2 3.26 4.444)'), (3, 'POINT EMPTY'), (4, 'MULTIPOINT(1 2)'),
    (5, 'LINESTRING(1 2, 3 4)'), (6, 'GEOMETRYCOLLECTION(POINT(1 2))'), (7, 'LINESTRING EMPTY')) as kind (id, geom);
create table breaks as select E'one\\nfalse' as id, 'POINT(1 2)'::geometry as geom;
create table vast as select 1 as id, 'POINT(1e15 -9.1e18)'::geometry as geom;
"""


def filled(database):
    """The blobs of two examples as rows, whose ids grow as the blobs do. Between the lines are rows that have no geometry."""
    for name in ("coast_lines_sized", "points_sized"):
        data = example(name)
        bodies = [data[blob.start : blob.stop].hex() for blob in plain.blobs_of(data)]
        rows = "".join(f"{100 + 2 * number}\t\\\\x{body}\n" for number, body in enumerate(bodies))
        database.asked(f"create table {name} (id int, body bytea); copy {name} from stdin;\n{rows}\\.\n")
    database.asked(TABLES)
    for name, rows, _ in REFUSED:
        database.asked(f"create table {name} (id int, geom geometry); insert into {name} values (5, 'POINT(1 2)'), {rows};")


def example(name):
    with open(os.path.join(EXAMPLES, f"{name}.twkb"), "rb") as file:
        return file.read()


def of_page(pattern):
    """Lines of docs/USAGE.md."""
    with open(PAGE, encoding="utf-8") as page:
        return re.findall(pattern, page.read(), re.MULTILINE)


def scanned(place, *windows):
    return subprocess.run([place.program, "scan", place.file, *windows], capture_output=True, text=True).stdout


def recipe(place):
    """What the page has for the ids of hits, run on the layer that is served."""
    lines = re.sub("^    ", "", of_page(r"^    file=\$\(readlink.*\n(?:    .*\n)+")[0], flags=re.MULTILINE)
    path = f"{os.path.dirname(place.program)}:{os.environ['PATH']}"
    options = {"capture_output": True, "text": True, "cwd": place.served, "env": os.environ | {"PATH": path}}
    done = subprocess.run(["sh", "-eu", "-c", lines], **options)
    return done.stdout.splitlines() or [done.stderr]


def the_example(place, database):
    """The example is written byte for byte, and hits have the ids of their rows, whatever becomes of the table."""
    status, out, error = place.fresh().run("coast", environment=database.words)
    count("PostGIS", (status, out, place.now()[0] == example("coast_lines_sized")), (0, "ok blobs=1715 vertices=14590\n", True))
    count("PostGIS: rows with no geometry", "2 rows have no geometry" in error, True)
    count("PostGIS: the ids", place.now()[1].split(), [str(100 + 2 * number) for number in range(1715)])
    ids = [str(100 + 2 * int(blob)) for blob in re.findall("^hit blob=(\\d+) ", scanned(place, EUROPE), re.MULTILINE)]
    count("from hits to ids", (recipe(place), len(ids)), (ids, 44))
    database.asked("delete from coast where id < 1000;")
    count("from hits to ids, once rows are gone", recipe(place), ids)
    count("PostGIS, with fewer rows", place.run("coast", environment=database.words)[0], 0)
    count("from hits to ids of the new layer", recipe(place), [one for one in ids if int(one) >= 1000])


def what_is_refused(place, database):
    place.fresh()
    for name, _, said in REFUSED:
        place.stays(f"PostGIS, {name}", 3, said, name, environment=database.words)
    for name, said in (("half", "half way"), ("public.missing", "does not exist"), ("breaks", "an id has a line break: one false\n")):
        place.stays(f"PostGIS, {name}", 3, said, name, environment=database.words)
    place.stays("PostGIS, a missing column", 3, "does not exist", "--id", "nosuch", "kinds", environment=database.words)
    place.stays("PostGIS, too fine", 3, "precision: 1\n", "vast", environment=database.words)
    status, out, _ = place.run("--precision", "0", "vast", environment=database.words)
    count("PostGIS, coarse enough", (status, out, place.now()[1]), (0, "ok blobs=1 vertices=1\n", "1\n"))
    database.asked("delete from coast;")
    place.stays("PostGIS, an emptied table", 3, "no row of coast has a geometry", "coast", environment=database.words)


def names_and_options(place, database):
    """Names in quotes, a geography, ids of any text, and sizes and boxes by kind."""
    words = ["--id", '"Feature Id"', "--geom", '"the geom"', 'gis."Coast ""lines"']
    status, out, _ = place.fresh().run(*words, environment=database.words)
    count("names in quotes", (status, out, place.now()[1]), (0, "ok blobs=3 vertices=4\n", "\na b\t'c\\\nküste\n"))
    for words, sized, precisions in (
        (["kinds"], [False, False, False, True, True, True, True], 7 * [4]),
        (["--boxes", "all", "--precision", "-1", "kinds"], 7 * [True], 7 * [-1]),
        (["--boxes", "none", "--precision", "7", "kinds"], 7 * [False], 7 * [7]),
    ):
        count(f"{words}", place.run(*words, environment=database.words)[0], 0)
        listed = subprocess.run([place.program, "list", place.file], capture_output=True, text=True).stdout
        count(f"{words}: sizes", re.findall(" size=(yes|no)", listed), [("no", "yes")[one] for one in sized])
        boxes = [("no", "yes")[one and number not in (2, 6)] for number, one in enumerate(sized)]
        count(f"{words}: boxes, but of what is empty", re.findall(" box=(yes|no)", listed), boxes)
        count(f"{words}: precisions", [int(one) for one in re.findall(r" precision=(\S+)", listed)], precisions)
    place.run("--precision-z", "1", "--precision-m", "3", "kinds", environment=database.words)
    windows = ["x=1..1,y=2..2,z=3.3..3.3", "x=1..1,y=2..2,m=4.444..4.444", "x=1..1,y=2..2,z=3..3"]
    count("precisions of Z and M", re.findall("^hits=([0-9]+)", scanned(place, *windows), re.MULTILINE), ["1", "1", "0"])


def points(place, database):
    """What the page says of points with sizes and boxes and without."""
    for row, words in (("without sizes and boxes", ["points"]), ("with both", ["--boxes", "all", "points"])):
        place.run(*words, environment=database.words)
        alone, of_two = (re.findall(r" read=(\d+) of=(\d+)", scanned(place, *windows))[0] for windows in ([EUROPE], 2 * [EUROPE]))
        numbers = [alone[1], alone[0], of_two[0]]
        count(f"points {row}", of_page(rf"^\| {row} \| (.*) \|$"), [" | ".join(f"{int(number):,}" for number in numbers)])


def tried(place, database):
    try:
        filled(database)
        the_example(place, database)
        points(place, database)
        what_is_refused(place, database)
        names_and_options(place, database)
    finally:
        database.stop()
    place.fresh().stays("no database", 3, "psql ended with status 2", "coast", environment=database.words)
