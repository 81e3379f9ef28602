#!/usr/bin/env python3
"""Runs the built programs and the same in plain Rust, in one run, and prints tables of times and instructions.

usage: bench/run.py TOOL SCANNER [RUNS]

SCANNER is twkb_bench, which times audits and scans within its process. TOOL is twkb_tool, of which whole runs are
timed, and runs on the same bytes with a first one that no blob begins with: these read the file and refuse it. They are
compared with programs in Rust, std only: fast/ is the fastest that we know how to write, without SIMD, and vectors/ with
the SIMD of x86-64-v2; of the two called plain, plain.rs checks as one would write it at first, and hops.rs scans with all
inlined. In each of RUNS rounds ours is run between two runs of fast/. The tables are those of docs/SPEED.md: of each program the
best time, the instructions, which valgrind counts, and the ratios of these numbers. Times are of 40 MB, and instructions of 4 MB, of
one audit or scan alone. Where two answers differ, the run fails. A plot of ratios goes to docs/bench.svg; there those over fast/ are
medians of the rounds in which both of its runs took as long, or of the best times, where fewer than half of the rounds were such.
"""
import os
import sys
import tempfile

import layers
import plots
import programs
import symbols
from programs import field, one_more, the_same
from rounds import Rounds

TIMED, COUNTED = 40_000_000, 4_000_000
ONE_EUROPE, ONE_INDIES = "x=10..30,y=35..45", "x=100..140,y=-10..10"
WHOLE, NOTHING = "x=-360..360,y=-360..360", "x=10..30,y=85..89"
MISSED = "hop scan without a hit"
STEPS = {
    "hop scan, 20 by 10 degrees": ONE_EUROPE,
    "hop scan, 40 by 20 degrees": ONE_INDIES,
    MISSED: NOTHING,
    "scan of everything": WHOLE,
}
BUILD, LOOKUP = "building a directory", "directory scan without a hit"
# With this variable glibc asks the kernel for pages of 2 MB, of which a directory needs few: the kernel sets each page to zero when it
# is first written to.
LARGE_PAGES = {"GLIBC_TUNABLES": "glibc.malloc.hugetlb=1"}
BUILD_IN_LARGE = "building a directory, pages of 2 MB"
# How many blobs of coast_lines_sized PostGIS finds in a window.
POSTGIS = {ONE_EUROPE: 44, ONE_INDIES: 158, NOTHING: 0}


def units(window):
    """The ends of a window as words, in units of a ten-millionth of a degree."""
    return [str(int(end) * 10**7) for part in window.split(",") for end in part[2:].split("..")]


class Programs:
    """The programs by name, each with its words for a check or a scan."""

    def __init__(self, folder, tool, scanner):
        self.tool, self.scanner = os.path.abspath(tool), os.path.abspath(scanner)
        # All modules at once, and twice over: so loops come out best.
        whole = ["-C", "codegen-units=1", "-C", "lto=thin"]
        self.fast = programs.built(folder, "fast", "fast/main.rs", *whole)
        self.vectors = programs.built(folder, "vectors", "vectors/main.rs", *whole, "-C", "target-cpu=x86-64-v2")
        self.plain = programs.built(folder, "plain", "plain.rs")
        self.hops = programs.built(folder, "hops", "hops.rs")

    def checks(self, layer):
        """Whole runs."""
        return {
            "ours": [self.tool, "check", layer],
            "fast": [self.fast, "check", layer],
            "vectors": [self.vectors, "check", layer],
            "plain": [self.plain, layer],
        }

    def audits(self, layer, repeats):
        """Audits repeated within the process."""
        return {
            "ours": [self.scanner, layer, repeats],
            "fast": [self.fast, "check", layer, repeats],
            "vectors": [self.vectors, "check", layer, repeats],
            "plain": [self.plain, layer, repeats],
        }

    def scans(self, layer, window, repeats):
        mode = "scanall" if window == WHOLE else "scan"
        return {
            "fast": [self.fast, mode, layer, *units(window), repeats],
            "vectors": [self.vectors, mode, layer, *units(window), repeats],
            "plain": [self.hops, layer, *units(window), repeats],
        }


# A round: ours between two runs of fast/.
ORDER = ("fast", "ours", "fast", "vectors", "plain")


def told(line, *names):
    """The time that a line tells, in milliseconds, and the values of these names in it."""
    return int(field(line, "nanoseconds")) / 1e6, tuple(field(line, name) for name in names)


def note_audits(found, layer, rounds):
    """One round of audits, each the best of three repeats."""
    commands = found.audits(layer, "3")

    def audited(name):
        (line,), _, _ = programs.run(commands[name])
        return told(line, "blobs", "vertices")

    before, ours, after, vectors, plain = (audited(name) for name in ORDER)
    rounds.note(ours, before, after, vectors, plain)


def note_runs(commands, rounds, memories):
    """One round of whole runs."""

    def ran(name):
        (line, *_), seconds, kilobytes = programs.run(commands[name])
        memories[name] = max(memories.get(name, 0), kilobytes / 1024)
        return 1000 * seconds, line.split(" nanoseconds=")[0]

    before, ours, after, vectors, plain = (ran(name) for name in ORDER)
    rounds.note(ours, before, after, vectors, plain)


def note_scans(found, layer, rounds):
    """One round of each scan, the best of two repeats. Directories are compared with hop scans that hit nothing."""

    def scanned(name):
        lines = {step: programs.run(found.scans(layer, window, "2")[name])[0][0] for step, window in STEPS.items()}
        return {step: told(line, "hits", "read") for step, line in lines.items()}

    before = scanned("fast")
    (_, *lines), _, _ = programs.run([found.scanner, layer, "2", *STEPS.values(), "build", NOTHING])
    others = before, scanned("fast"), scanned("vectors"), scanned("plain")
    for step, line in zip(STEPS, lines):
        rounds[step].note(told(line, "found", "read"), *(other[step] for other in others))
    # A directory scan has as many hits, and reads less.
    built, looked_up = lines[len(STEPS) :]
    hop_scans = [(time, hits) for time, (hits, _) in (other[MISSED] for other in others)]
    rounds[BUILD].note(told(built), *hop_scans)
    rounds[LOOKUP].note((told(looked_up)[0], field(looked_up, "found")), *hop_scans)
    (_, built), _, _ = programs.run([found.scanner, layer, "2", "build"], **LARGE_PAGES)
    rounds[BUILD_IN_LARGE].note(told(built), *hop_scans)


def count_audits(found, layer):
    """The instructions of one audit alone. The scanner does all once with 0 for repeats, the others with 1."""
    commands = found.audits(layer, "REPEATS")
    return {name: one_more(command, 0 if name == "ours" else 1) for name, command in commands.items()}


def count_scans(found, layer):
    """The instructions of one of each of the scans alone. With each repeat the scanner audits too."""
    ours = [found.scanner, layer, "REPEATS"]
    audit = one_more(ours, 0)
    counts = {(step, "ours"): less(one_more([*ours, window], 0), audit) for step, window in STEPS.items()}
    both = one_more([*ours, "build", NOTHING], 0)
    counts[BUILD, "ours"] = counts[BUILD_IN_LARGE, "ours"] = less(one_more([*ours, "build"], 0), audit)
    counts[LOOKUP, "ours"] = less(both, one_more([*ours, "build"], 0))
    for step, window in STEPS.items():
        for name, command in found.scans(layer, window, "REPEATS").items():
            counts[step, name] = one_more(command, 1)
    return counts


def less(count, other):
    return None if count is None else count - other


def shown(value, digits=1):
    return "" if value is None else f"{value:.{digits}f}"


def ratio(value, over):
    return "" if not value or not over else f"{value / over:.2f}"


# The programs in the order of the columns.
NAMES = ("ours", "fast", "vectors", "plain")
# The rows of instructions, which are printed as a table of their own, after the one of times.
COUNTED_ROWS = []


def cells(numbers):
    """The numbers of the four programs, and the ratios of ours over those of fast/ and of vectors/."""
    ours, fast, vectors, plain = numbers
    return [*map(shown, (ours, fast, vectors, plain)), ratio(ours, fast), ratio(ours, vectors)]


def row(*words):
    return "| " + " | ".join(words) + " |"


def note_row(title, kind, rounds, counts):
    """Prints the row of a step in the table of times, and keeps the one of instructions."""
    print(row(title, kind, *cells(rounds.bests())), flush=True)
    COUNTED_ROWS.append(row(title, kind, *cells(map(counts.get, NAMES))))


def heading(unit, *first):
    columns = [*first, *(f"{name}, {unit}" for name in NAMES), "ours to fast", "ours to vectors"]
    print("\n" + row(*columns) + "\n" + "|---" * len(columns) + "|")


def table_of_audits(found, folder, runs):
    """Prints the rows of audits, and gives the times of each kind."""
    kept = {}
    for kind in layers.KINDS:
        layer, _ = layers.write_layer(folder, kind, TIMED)
        kept[kind] = Rounds()
        for _ in range(runs):
            note_audits(found, layer, kept[kind])
        the_same(kept[kind])
        os.remove(layer)
        small, _ = layers.write_layer(folder, kind, COUNTED)
        note_row("audit", kind, kept[kind], count_audits(found, small))
    return kept


def table_of_whole_runs(found, folder, runs, audits):
    """Prints what whole runs of `check` on the mix take, from the start of the process to its end.

    Reading is a run that ends at the first byte. The yardstick reads by std::fs::read, so its reading and our audit
    together are what our whole run would take with a reading that costs nothing more.
    """
    layer, _ = layers.write_layer(folder, "the mix", TIMED)
    refused, _ = layers.write_layer(folder, "the mix", TIMED, layers.NO_BLOB)
    wholes, reads, memories = Rounds(), Rounds(), {}
    for _ in range(runs):
        note_runs(found.checks(layer), wholes, memories)
        note_runs(found.checks(refused), reads, {})
    the_same(wholes)
    the_same(reads)
    heading("ms", "Whole run of check, the mix")
    for title, rounds in {"all": wholes, "reading alone": reads}.items():
        print(row(title, *cells(rounds.bests())))
    print(row("greatest memory, MiB", *cells(map(memories.get, NAMES))))
    together = min(audits.ours) + min(reads.fast)
    over = ratio(min(wholes.ours), together)
    print(f"our audit and the reading of fast take {together:.1f} ms together: our whole run is {over} of it")


def tell_of_memory(found, folder, audits):
    """Prints what a sum of the bytes takes, which memory limits, beside the audits."""
    layer, _ = layers.write_layer(folder, "the mix", TIMED)
    (line,), _, _ = programs.run([found.fast, "touch", layer, "10"])
    summed = int(field(line, "nanoseconds")) / 1e6
    over = ratio(min(audits.ours), summed)
    print(f"a sum of the bytes of the mix takes {summed:.1f} ms: our audit is {over} of it")


def table_of_scans(found, folder, runs):
    """Prints the rows of scans and directories, and gives notes on directories, and ratios of times."""
    notes, over = [], {}
    for kind in ("the mix", "lines"):
        layer, copies = layers.write_layer(folder, kind, TIMED)
        rounds = {step: Rounds() for step in [*STEPS, BUILD, BUILD_IN_LARGE, LOOKUP]}
        for _ in range(runs):
            note_scans(found, layer, rounds)
        for step, window in STEPS.items():
            hits, _ = the_same(rounds[step])
            if kind == "lines" and window in POSTGIS and int(hits) != POSTGIS[window] * copies:
                sys.exit(f"{hits} blobs were found in {window}, {POSTGIS[window] * copies} by PostGIS")
        the_same(rounds[LOOKUP])
        small, _ = layers.write_layer(folder, kind, COUNTED)
        counts = count_scans(found, small)
        for step, times in rounds.items():
            other = step if step in STEPS else MISSED
            note_row(step, kind, times, {name: counts[step if name == "ours" else other, name] for name in NAMES})
        over |= {f"{step}, {kind}": (rounds[step].over_fast(), rounds[step].over_vectors()) for step in STEPS}
        rate = min(rounds[MISSED].ours) / min(rounds[LOOKUP].ours)
        notes.append(f"{kind}: {bytes_a_blob(found, folder, kind):.0f} bytes a blob in a directory, "
                     f"whose scan without a hit has {rate:.1f} times the rate of the hop scan")
    return notes, over


def bytes_a_blob(found, folder, kind):
    """What a further blob adds to the greatest memory of a process that builds a directory, its file left out."""
    measured = []
    for least_bytes in (TIMED // 2, TIMED):
        layer, _ = layers.write_layer(folder, kind, least_bytes)
        (_, line), _, kilobytes = programs.run([found.scanner, layer, "0", "build"])
        measured.append((1024 * kilobytes - os.path.getsize(layer), int(field(line, "blobs"))))
    (fewer, few), (more, many) = measured
    return (more - fewer) / (many - few)


def main():
    runs = int(sys.argv[3]) if len(sys.argv) > 3 else 10
    with tempfile.TemporaryDirectory() as folder:
        found = Programs(folder, *sys.argv[1:3])
        heading("ms", "Step", "Layer")
        audits = table_of_audits(found, folder, runs)
        notes, scans = table_of_scans(found, folder, runs)
        heading("M", "Step", "Layer")
        print("\n".join(COUNTED_ROWS))
        table_of_whole_runs(found, folder, runs, audits["the mix"])
        tell_of_memory(found, folder, audits["the mix"])
        print("\n" + "\n".join(notes))
        symbols.tell(found.tool, "twkb_tool")
        symbols.tell(found.scanner, "twkb_bench")
    over = {kind: (rounds.over_fast(), rounds.over_vectors()) for kind, rounds in audits.items()}
    sections = [("audits", over), ("scans", scans)]
    plots.ratios(os.path.join(layers.TOP, "docs", "bench.svg"), ("ours to fast", "ours to vectors"), sections)


main()
