"""Lets one program have two builds of the same functions: isolate.py FOLDER CALLERS.o.. -- PEER LIBRARIES..

A word of LIBRARIES is a build: its static libraries, joined by commas. Writes one object for each build,
FOLDER/build0.o and so on, in which only the functions that the callers need can be linked, under names of
that build; FOLDER/peer.o of the library PEER, under the names that they have; and FOLDER/slots.o, in which each
function of ours jumps through a slot of `bench_slots`. `bench_table` has the functions of all builds, those
of one build after another.
"""
import re
import subprocess
import sys

# The functions of this repository, of the loops in ours/ and of the library for C; and those of the peer.
OURS = re.compile(r" U ((?:ours|bks)_\w+)$", re.MULTILINE)
PEERS = re.compile(r" U (rust_\w+)$", re.MULTILINE)


def called(callers, kind):
    """Returns the names of the functions of this kind that the callers need, in order."""
    listed = subprocess.run(["nm", "-u", *callers], check=True, capture_output=True, text=True)
    return sorted(set(kind.findall(listed.stdout)))


def write(path, lines):
    with open(path, "w", encoding="utf-8") as file:
        file.write("".join(f"{line}\n" for line in lines))


def isolate(made, prefix, names, libraries):
    """Writes an object with these functions, whose names get the prefix."""
    needed = [word for name in names for word in ("-u", name)]
    subprocess.run(["ld", "-r", *needed, "-o", made, *libraries.split(",")], check=True)
    write(f"{made}.names", [f"{name} {prefix}{name}" for name in names])
    subprocess.run(["objcopy", f"--redefine-syms={made}.names", made], check=True)
    write(f"{made}.names", [prefix + name for name in names])
    subprocess.run(["objcopy", f"--keep-global-symbols={made}.names", made], check=True)


def slots(names, builds):
    """Yields the lines of the assembler for the slots and the table."""
    yield '.section .note.GNU-stack,"",@progbits'
    yield ".text"
    for i, name in enumerate(names):
        yield f".globl {name}\n.p2align 4\n{name}: jmp *bench_slots+{8 * i}(%rip)"
    yield ".data\n.p2align 3\n.globl bench_builds, bench_functions, bench_slots, bench_table"
    yield f"bench_builds: .quad {builds}\nbench_functions: .quad {len(names)}"
    yield "bench_slots:"
    yield from (f".quad b0_{name}" for name in names)
    yield "bench_table:"
    yield from (f".quad b{build}_{name}" for build in range(builds) for name in names)


def main(folder, *words):
    callers, (peer, *builds) = words[: words.index("--")], words[words.index("--") + 1 :]
    isolate(f"{folder}/peer.o", "", called(callers, PEERS), peer)
    names = called(callers, OURS)
    for build, libraries in enumerate(builds):
        isolate(f"{folder}/build{build}.o", f"b{build}_", names, libraries)
    write(f"{folder}/slots.s", slots(names, len(builds)))
    subprocess.run(["gcc", "-c", "-o", f"{folder}/slots.o", f"{folder}/slots.s"], check=True)


main(*sys.argv[1:])
