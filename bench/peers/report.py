"""Prints what the program peers measured, as a page in Markdown: report.py MADE_BY MEASURED..

MADE_BY says how the C library was built. Each file MEASURED is one run of the program. A time is the
least of all runs, which differ in the address of the code.
"""
import collections
import math
import sys

HEAD = """# Other libraries

`PAGE=bench/peers.md bench/peers.sh` generates this page; do not edit it.
[Benchmarks](README.md#other-libraries) says how to read it, and why ours is slower in some rows.

- The C library: {made_by}
- Other libraries: {versions}

| Rows | ours | others |
|---|---|---|
| a code point | `bks_get8`, inline | `UCPTRIE_FAST_GET` over our table (ICU macro), `u_charType` (ICU), `g_unichar_type`, `utf8proc_category`, `uc_general_category` |
| a text, into a buffer | `bks_trie8_copy_utf8` | `UCPTRIE_FAST_U8_NEXT`; and these with `U8_NEXT_OR_FFFD`, `g_utf8_get_char` and `g_utf8_next_char`, `utf8proc_iterate`, `u8_mbtouc` |
| a key | `bks_units_get_utf8`, `bks_units_get` | `UCharsTrie::next`, `find`, `marisa::Trie::lookup` and an array of values, `trie_retrieve` |
| the longest key | `bks_units_longest_utf8`, `bks_units_longest` | `UCharsTrie::next` as far as a key continues, `find` for each length that a key has, `common_prefix_search`, `trie_state_walk` |
| stored bytes | `bks_units_build_utf8` | `UCharsTrieBuilder`, `io_size` and 4 bytes per value, `trie_get_serialized_size` |
"""
TITLES = {
    "points": "The general category of a code point: ns",
    "texts": "The general categories of a text: ns per character",
    "keys": "The value of a key: ns",
    "longest": "The longest key at each character of a text: ns",
}


def read(files):
    """Returns the least times, as kernel -> row -> library -> ns, and the other lines by their kind."""
    times = collections.defaultdict(lambda: collections.defaultdict(dict))
    others = collections.defaultdict(dict)
    for file in files:
        for line in open(file, encoding="utf-8"):
            kind, *words = line.rstrip("\n").split("\t")
            if kind != "time":
                others[kind][tuple(words[:-1])] = words
                continue
            kernel, row, library, time = words
            least = times[kernel][row]
            least[library] = min(float(time), least.get(library, math.inf))
    return times, {kind: list(lines.values()) for kind, lines in others.items()}


def table(head, lines):
    rows = ["| " + " | ".join(map(str, words)) + " |" for words in (head, *lines)]
    return "\n".join([rows[0], "|---" * len(head) + "|", *rows[1:], ""])


def by_best(least):
    """Returns our time divided by that of the best other library, and its name."""
    best = min((it for it in least if not it.startswith("ours")), key=least.get)
    return f"{least['ours'] / least[best]:.2f} ({best})"


def times_table(rows):
    libraries = list(next(iter(rows.values())))
    lines = [[row, *(f"{it:.1f}" for it in least.values()), by_best(least)] for row, least in rows.items()]
    return table(["", *libraries, "ours / best"], lines)


def sizes_table(lists, sizes):
    """Returns the bytes of each list's keys and structures: as stored, and on the heap."""
    found = collections.defaultdict(dict)
    for name, library, stored, heap in sizes:
        stored, heap = "none" if stored == "0" else stored, "in place" if heap == "0" else heap
        found[name][library] = f"{stored}; {heap}"
    lines = [[name, keys, size, *found[name].values()] for name, keys, size in lists]
    return table(["", "keys", "their bytes", *found[lines[0][0]]], lines)


def sections(times, others):
    for kernel, rows in times.items():
        yield TITLES[kernel], times_table(rows)
    if "size" in others:
        yield "Bytes of each structure: stored; on the heap", sizes_table(others["list"], others["size"])
    if "table" in others:
        heads = ["", "Unicode", "unassigned in one of both", "other differences"]
        yield "Code points whose category differs from ours", table(heads, others["table"])


def main():
    made_by, *files = sys.argv[1:]
    times, others = read(files)
    versions = ", ".join(" ".join(it) for it in others["version"])
    print(HEAD.format(made_by=made_by, versions=versions))
    print("\n".join(f"## {title}\n\n{text}" for title, text in sections(times, others)), end="")


main()
