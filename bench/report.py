"""Prints what the program bench measured, in Markdown: report.py [--page FILE] --builds NAME.. -- MEASURED..

Each file has runs of the program. A time is the least of all runs: they differ in the address of
the code, which changes the time of short loops by up to a half on some processors. NAME is what a
build of ours is called, in the order of the columns. `--page FILE` also writes all but the rows of
each kernel to that file, as the page bench/results.md.
"""
import argparse
import collections
import fnmatch
import math
import os

PEERS = {"rust": "Rust", "icu": "ICU"}
# In ns. A row with a lower time is left out, because the compiler removed the loop.
NOTHING = 0.1
# Kernels with a row above this ratio are listed with the cause.
SLOW = 1.3
PAGE_HEAD = """# Results of the benchmark

`PAGE=bench/results.md bench/run.sh` generates this page; do not edit it. [Benchmarks](README.md) describes the
kernels and how to read a ratio. The first table has the kernels with the worst rows first: a column has the mean of
our times divided by a peer's, then the worst row to the faster peer.

"""


def read(files, builds):
    """Returns the least times, as kernel -> row -> library -> ns, the lines of cells and units, and the
    ns of a cycle."""
    times = collections.defaultdict(dict)
    others = {"cells": {}, "units": {}}
    cycle = math.inf
    for file in files:
        for line in open(file):
            kind, *words = line.rstrip("\n").split("\t")
            if kind == "cycle":
                cycle = min(cycle, float(words[0]))
                continue
            if kind != "time":
                others[kind][line] = words
                continue
            kernel, row, *told = words
            least = times[kernel].setdefault(row, {})
            for library, time in zip([*builds, *PEERS], told):
                if time:
                    least[library] = min(float(time), least.get(library, math.inf))
    for rows in times.values():
        for row in [row for row, least in rows.items() if min(least.values()) < NOTHING]:
            del rows[row]
    return {kernel: rows for kernel, rows in times.items() if rows}, others, cycle


def table(head, lines):
    """Returns a table in Markdown."""
    rows = ["| " + " | ".join(map(str, words)) + " |" for words in (head, *lines)]
    return "\n".join([rows[0], "|---" * len(head) + "|", *rows[1:], ""])


def shown(number):
    return "" if number is None else f"{number:.2f}"


def mean(least_times, build, peer):
    """Returns the geometric mean of a build's times divided by a peer's, or None if it has none."""
    ratios = [least[build] / least[peer] for least in least_times if peer in least]
    return math.exp(sum(map(math.log, ratios)) / len(ratios)) if ratios else None


def faster(least):
    """Returns the faster peer."""
    return min((it for it in PEERS if it in least), key=least.get)


def by_faster(least, build):
    """Returns the time of a build divided by that of the faster peer."""
    return least[build] / least[faster(least)]


def rows_of(kernel, rows, builds):
    """Returns the title and the table of a kernel's rows."""
    libraries = [*builds, *PEERS]
    lines = []
    for row, least in rows.items():
        ns = [f"{least[it]:.2f}" if it in least else "" for it in libraries]
        lines.append([row, *ns, *(shown(by_faster(least, build)) for build in builds)])
    heads = ["ns", *builds, *PEERS.values(), *(f"{build} / faster peer" for build in builds)]
    return kernel, table(heads, lines)


def worst_of(rows, build):
    return max(rows, key=lambda row: by_faster(rows[row], build))


def summary_of(times, builds):
    """Returns the title and the table of all kernels, those with the worst rows first."""
    lines = []
    for kernel, rows in times.items():
        worst = [worst_of(rows, build) for build in builds]
        ratios = [by_faster(rows[row], build) for row, build in zip(worst, builds)]
        line = [f"`{kernel}`", len(rows)]
        for build, row, ratio in zip(builds, worst, ratios):
            line += [shown(mean(rows.values(), build, peer)) for peer in PEERS]
            line += [f"{ratio:.2f} ({row})"]
        lines.append((max(ratios), line))
    heads = ["kernel", "rows"]
    for build in builds:
        heads += [f"{build} / {peer}" for peer in PEERS.values()] + ["worst row"]
    return "Kernels", table(heads, [line for _, line in sorted(lines, key=lambda it: -it[0])])


def causes():
    """Returns the lines of causes.txt as pairs: what KERNEL ROW has to match, and the cause."""
    path = f"{os.path.dirname(os.path.realpath(__file__))}/causes.txt"
    lines = [line.strip() for line in open(path, encoding="utf-8") if line.strip() and line[0] != "#"]
    return [line.split(": ", 1) for line in lines]


def slow_kernels(times, builds, cycle):
    """Returns the title and the table of the kernels with slow rows: how many, the worst, how many cycles
    it takes more than the faster peer, and the cause."""
    known, lines, count = causes(), [], 0
    for kernel, rows in times.items():
        slow = {row for row, least in rows.items() for build in builds if by_faster(least, build) > SLOW}
        count += len(slow)
        groups = collections.defaultdict(list)
        for row in rows:
            if row in slow:
                fits = (why for form, why in known if fnmatch.fnmatchcase(f"{kernel} {row}", form))
                groups[next(fits, "not known")].append(row)
        for why, some in groups.items():
            worst = max(some, key=lambda row: max(by_faster(rows[row], build) for build in builds))
            least = rows[worst]
            more = [f"{(least[build] - least[faster(least)]) / cycle:.1f}" for build in builds]
            lines.append([f"`{kernel}`", len(some), worst, *more, why])
    heads = ["kernel", "rows", "the worst", *(f"{build}, cycles more" for build in builds), "cause"]
    note = f"{count} of {sum(map(len, times.values()))} rows. A cycle took {cycle:.2f} ns.\n\n"
    return f"Rows above {SLOW}", note + table(heads, lines)


def sizes(others):
    """Yields the titles and the tables of what was built."""
    if others["cells"]:
        heads = ["kernel", "table", "data", "ICU's", "index", "ICU's", "kB", "ICU's"]
        yield "Cells of tries that are built, and the most of the heap", table(heads, others["cells"].values())
    if others["units"]:
        heads = ["list", "keys", "units", "ICU's fast", "ICU's small"]
        yield "Units of unit tries that are built", table(heads, others["units"].values())


def main():
    parser = argparse.ArgumentParser()
    parser.add_argument("--page")
    parser.add_argument("--builds", nargs="+", required=True)
    parser.add_argument("measured", nargs="+")
    words = parser.parse_args()
    times, others, cycle = read(words.measured, words.builds)
    parts = summary_of(times, words.builds), slow_kernels(times, words.builds, cycle), *sizes(others)
    for title, text in (*(rows_of(kernel, rows, words.builds) for kernel, rows in times.items()), *parts):
        print(f"### {title}\n\n{text}")
    if words.page:
        with open(words.page, "w", encoding="utf-8") as file:
            file.write(PAGE_HEAD + "\n".join(f"## {title}\n\n{text}" for title, text in parts))


main()
