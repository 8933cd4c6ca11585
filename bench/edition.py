"""Writes the Rust edition and the loops that the driver calls, and builds both:
edition.py FOLDER [--check] [FORM..]

FOLDER then has FORM.a for each form, or both: `safe.a` and `proved-reads.a` are the loops of bench/ours,
converted to Rust, over the public names of rust/bekstaudi without and with that feature. Each library also
has the peer. With --check nothing is built: the status says whether all of it compiles.
"""
import glob
import importlib.machinery
import importlib.util
import os
import re
import shutil
import subprocess
import sys

sys.dont_write_bytecode = True
TOP = os.path.dirname(os.path.dirname(os.path.realpath(__file__)))
sys.path.insert(0, f"{TOP}/rust")
# The paths of the crates' items, and the modules of the Rust edition that have them.
SHOWN = {
    "icu_zerovec": "zerovec",
    "icu_invlist::codepointinvlist": "codepointinvlist",
    "icu_frozen_sets::frozen": "codepointinvlist",
    **{f"icu_trie::{it}": "codepointtrie" for it in ("cptrie", "header", "typed", "value")},
    "icu_trie_binary::binary": "codepointtrie::binary",
    "icu_trie_text::text": "codepointtrie::text",
    "icu_trie_builder::writes": "codepointtrie",
    "icu_trie_builder": "codepointtrie",
    "icu_char16trie::char16trie": "char16trie",
    "icu_char16trie_builder::builder": "char16trie",
}
RULES = [(f"use {path}::", f"use bekstaudi::{name}::") for path, name in SHOWN.items()] + [
    ("std::str::from_utf8", "core::str::from_utf8"),
]
CALL = re.compile(r'(pub extern "C" fn \w+)\(([^)]*)\)( -> \w+ \{\n)')
SLICE = re.compile(r"(\w+): &(mut )?\[(\w+)\]")
FLAGS = "--edition 2024 -O -C target-cpu=x86-64-v2 -C panic=abort --cap-lints allow".split()
# No jump crosses a multiple of 32 bytes, at which loops start: see `Code addresses` in README.md.
FLAGS += ["-C", "llvm-args=-x86-branches-within-32B-boundaries -align-loops=32"]


def called_from_c(found):
    """Returns the function with each slice argument as a pointer and a length."""
    head, arguments, tail = found.groups()
    for name, mutable, of in SLICE.findall(arguments):
        kind = "_mut" if mutable else ""
        tail += f"    let {name} = unsafe {{ core::slice::from_raw_parts{kind}({name}, {name}_len) }};\n"
    pointer = lambda it: f"{it[1]}: *{it[2] or 'const '}{it[3]}, {it[1]}_len: usize"
    return f"{head}({SLICE.sub(pointer, arguments)}){tail}"


def maker():
    """Returns rust/make as a module."""
    loader = importlib.machinery.SourceFileLoader("make", f"{TOP}/rust/make")
    made = importlib.util.module_from_spec(importlib.util.spec_from_loader("make", loader))
    loader.exec_module(made)
    return made


def write(path, text):
    with open(path, "w", encoding="utf-8") as file:
        file.write(text)


def rustc(*words):
    subprocess.run(["rustc", *FLAGS, *words], check=True)


def write_calls(made, calls):
    """Writes the loops, converted to Rust, and what they need."""
    shutil.copytree(f"{TOP}/rust/handwritten/std", f"{calls}/src/support")
    os.makedirs(f"{calls}/src/bench_ours")
    for path in sorted(glob.glob(f"{TOP}/bench/ours/*.rs")):
        name = os.path.basename(path)[:-3]
        text = made.rust(path, "bench_ours", f"bench_ours/{name}", RULES)
        out = f"{calls}/src/bench_ours/{'mod' if name == 'lib' else name}.rs"
        write(out, CALL.sub(called_from_c, text))
    write(f"{calls}/src/lib.rs", "extern crate alloc;\nextern crate peer;\nmod bench_ours;\nmod support;\n")


def main(folder, *options):
    made, calls = maker(), f"{folder}/calls"
    forms = {"safe": [], "proved-reads": ["--cfg", 'feature="proved-reads"']}
    made.edition(f"{folder}/edition")
    write_calls(made, calls)
    emitted, ending = ("metadata", "rmeta") if "--check" in options else ("link", "rlib")
    peer = f"{folder}/libpeer.{ending}"
    rustc(f"--emit={emitted}", "--crate-type=rlib", "--crate-name=peer", "-o", peer, f"{TOP}/bench/peer/lib.rs")
    for name, words in forms.items():
        if name not in options and any(it in forms for it in options):
            continue
        os.makedirs(f"{folder}/{name}")
        lib = f"{folder}/{name}/libbekstaudi.{ending}"
        words = [f"--emit={emitted}", "--cfg", 'feature="alloc"', *words]
        rustc(*words, "--crate-type=rlib", "--crate-name=bekstaudi", "-o", lib, f"{folder}/edition/src/lib.rs")
        rustc(
            *words, "--crate-type=staticlib", "--extern", f"bekstaudi={lib}", "--extern", f"peer={peer}",
            "-o", f"{folder}/{name}.a", f"{calls}/src/lib.rs",
        )


main(*sys.argv[1:])
