#!/usr/bin/env python3
"""Asks PostGIS how many blobs of the example layers have a vertex in some windows, and prints that as postgis.tsv.

usage: tests/postgis.py > tests/postgis.tsv   (psql has to reach a database with the extension postgis, by its PG variables)

PostGIS decodes each blob by ST_GeomFromTWKB, and gives its vertices by ST_DumpPoints. What it finds is kept in the
repository, since the tests that compare the program with it run without it.
"""
import os
import subprocess

import plain

EXAMPLES = os.path.join(os.path.dirname(os.path.dirname(os.path.abspath(__file__))), "examples")
LAYERS = ["points_sized.twkb", "coast_lines_sized.twkb", "coast_collections.twkb", "coast_z.twkb"]
# Ranges of Z and M for coast_z.twkb, each added to ranges of X and Y.
FURTHER = [",z=7.3..7.3", ",z=7.31..9", ",m=-1..0", ",m=0.001..1", ",z=0..7.3,m=0..0", ",z=0..7.3,m=0.001..1"]
EVERYWHERE, NORTH = "x=-360..360,y=-360..360", "x=30..100,y=40..90"
STEP = 30
GRID = [f"x={x}..{x + STEP},y={y}..{y + STEP}" for y in range(-90, 90, STEP) for x in range(-180, 180, STEP)]
PLACES = ["x=10..30,y=35..45", "x=100..140,y=-10..10", "x=10..30,y=85..89", EVERYWHERE, NORTH]
AXES = ["ST_X", "ST_Y", "ST_Z", "ST_M"]


def asked(window):
    """The condition that a vertex is inside. What an axis lacks is null, and null is no number of a range."""
    ranges = zip(AXES, plain.window_of(window))
    return " and ".join(f"{axis}(vertex) between {low}/1e7 and {high}/1e7" for axis, (low, high) in filter(all, ranges))


def queries(layer):
    with open(os.path.join(EXAMPLES, layer), "rb") as file:
        data = file.read()
    yield "create temporary table blobs (number int, body bytea);"
    yield "copy blobs from stdin;"
    for number, blob in enumerate(plain.blobs_of(data)):
        yield f"{number}\t\\\\x{data[blob.start : blob.stop].hex()}"
    yield "\\."
    yield "create temporary table vertices as"
    yield "  select number, (ST_DumpPoints(ST_GeomFromTWKB(body))).geom as vertex from blobs;"
    windows = GRID + PLACES
    if layer == "coast_z.twkb":
        windows += [place + further for place in (EVERYWHERE, NORTH) for further in FURTHER]
    for window in windows:
        yield f"select '{layer}', '{window}', count(distinct number) from vertices where {asked(window)};"
    yield "drop table blobs, vertices;"


def main():
    script = "\n".join(line for layer in LAYERS for line in queries(layer)) + "\n"
    print("layer\twindow\thits", flush=True)
    command = ["psql", "--quiet", "--no-psqlrc", "--tuples-only", "--no-align", "--field-separator=\t"]
    subprocess.run([*command, "--set=ON_ERROR_STOP=1"], input=script.encode(), check=True)


main()
