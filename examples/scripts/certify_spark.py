#!/usr/bin/env python3
"""Certifies layers in object storage on a Spark cluster. Each layer is a task, and tasks share no state.

usage: spark-submit --files /usr/local/bin/twkb_tool certify_spark.py s3a://BUCKET/layers/*.twkb s3a://BUCKET/verdicts

Writes a line for each layer: its status, its path and the program's output, separated by tabs. The exit status of the job is 0
if all layers are certified, 1 if some are refused, 2 for a bad command line, and 3 if some couldn't be judged or there is no layer
at all. A task holds its layer in memory twice: once for Spark and once for the program.
"""
import subprocess
import sys
import tempfile


def usage():
    print("usage: certify_spark.py LAYERS VERDICTS", file=sys.stderr)
    return 2


def verdict(layer, program):
    """The status, the path and the line of a layer, which is its path and its bytes."""
    path, data = layer
    with tempfile.NamedTemporaryFile(suffix=".twkb") as file:
        file.write(data)
        file.flush()
        done = subprocess.run([program, "check", file.name], capture_output=True, text=True)
    return done.returncode, path, (done.stdout or done.stderr).rstrip("\n")


def status_of(statuses):
    """The status of the job, by those that layers have."""
    if not statuses:
        print("certify_spark.py: there is no layer", file=sys.stderr)
    return max(statuses) if statuses and set(statuses) <= {0, 1} else 3


def main():
    if len(sys.argv) != 3:
        sys.exit(usage())
    from pyspark import SparkFiles
    from pyspark.sql import SparkSession

    layers, verdicts = sys.argv[1:]
    context = SparkSession.builder.appName("certify layers").getOrCreate().sparkContext
    # As many partitions as Spark makes of it, up to one for each layer.
    found = context.binaryFiles(layers, minPartitions=1 << 20)
    told = found.map(lambda layer: verdict(layer, SparkFiles.get("twkb_tool"))).cache()
    told.map(lambda row: "\t".join(map(str, row))).saveAsTextFile(verdicts)
    sys.exit(status_of(told.map(lambda row: row[0]).distinct().collect()))


if __name__ == "__main__":
    main()
