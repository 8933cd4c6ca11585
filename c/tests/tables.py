"""The tries of c/tests/run: the one that tests/data has in TOML, and those that ICU4C builds."""
import os
import re
import shutil
import struct
import subprocess

from running import TOP, read, write

DATA = f"{TOP}/tests/data"
# The tables, and the types and widths in which tries are built of them.
TABLES = {
    f"{TOP}/data/general_category": ("fast 8", "small 8", "fast 16", "small 32"),
    f"{DATA}/simple_uppercase": ("small 32", "fast 32"),
}
ALL = (0x110000, 0x110000, -1)


def runs_of(rows):
    """Returns the runs of all code points. Those in no row have 0."""
    runs, following = [], 0
    for first, last, value in [*rows, ALL]:
        runs += [(following, first - 1, 0)] if following < first else []
        runs += [(first, last, value)]
        following = last + 1
    return runs[:-1]


def trie_of_toml(room):
    """Writes the trie that tests/data has in TOML in the binary form, and its runs. Returns its error
    value."""
    text = read(f"{DATA}/east_asian_width.toml")
    listed = lambda name: re.search(rf"(?ms)^{name} = \[(.*?)\]$", text)[1]
    cells = lambda name: [int(it, 0) for it in re.findall(r"\w+", listed(name))]
    field = lambda name: int(re.search(rf"^{name} = (\w+)", text, re.M)[1], 0)
    index, data, null = cells("index"), cells("data_8"), field("dataNullOffset")
    options = len(data) >> 16 << 12 | null >> 16 << 8 | field("type") << 6 | field("valueWidth")
    words = (options, len(index), len(data) & 0xFFFF, field("index3NullOffset"), null & 0xFFFF)
    header = struct.pack("<I6H", 0x54726933, *words, field("highStart") >> 9)
    path = f"{room}/tries/east_asian_width_small_8"
    with open(f"{path}.bin", "wb") as file:
        file.write(header + struct.pack(f"<{len(index)}H", *index) + bytes(data))
    rows = re.findall(r"\{a=(\w+), b=(\w+), v=(\d+)", text)
    rows = [(int(first, 16), int(last, 16), int(value)) for first, last, value in rows]
    write(f"{path}.runs.txt", "".join(f"{it[0]:X}..{it[1]:X};{it[2]}\n" for it in runs_of(rows)))
    return data[-1]


def tries_of_icu(room):
    """Writes the tries that ICU4C builds of the tables in the program icu_tries, and whether it did."""
    for table, kinds in TABLES.items():
        for kind in kinds:
            path = f"{room}/tries/{os.path.basename(table)}_{kind.replace(' ', '_')}"
            shutil.copy(f"{table}.runs.txt", f"{path}.runs.txt")
            with open(f"{table}.txt", encoding="utf-8") as rows, open(f"{path}.bin", "wb") as trie:
                words = [f"{room}/icu_tries", *kind.split(), "255"]
                yield subprocess.run(words, stdin=rows, stdout=trie).returncode == 0
