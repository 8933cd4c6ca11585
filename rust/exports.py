"""Writes the functions of the C library for cargo, rust/bekstaudi-c.

For each function of crates/icu_collections_c, which becomes a safe Rust function, `exports.rs` has an
`extern "C"` function that turns pointers and counts into slices. rust/tests/header.py compares them
with c/bekstaudi.h.
"""
import glob
import os

from files import Stop, read, rules_of, write
from names import compiled, ruled
from tokens import code_of, matches, tokens_of

CRATE = "icu_collections_c"
CALLS = [
    code_of(f'#[unsafe(no_mangle)] pub extern "C" fn $name{it}($$parameters) -> $$returned {{') for it in ("", "<$$of>")
]
STRUCT = code_of("#[repr(C)] #[derive(Clone, Copy)] pub struct $name {")
# The function and the struct that rust/handwritten/c_library/src/trie.rs has.
OPEN, TRIE = "bks_trie_open", "Trie"
HEAD = """//! The functions of c/bekstaudi.h. rust/make writes this file.
//!
//! # Safety
//! The caller keeps the rules of c/bekstaudi.h: behind each pointer there are as many items as the
//! count says, and no function writes to memory that it also reads. If a count is 0, its pointer may
//! be any pointer.
#![allow(clippy::missing_safety_doc)]

use crate::{slice, slice_mut, trie::Trie};
"""


def parameter(name, of, homes):
    """A parameter in exports.rs, and the argument that the safe function gets."""
    words = [it for it in code_of(of) if it[0] not in "<'>"]
    if words[0] != "&":
        return f"{name}: {of}", name
    mutable, item = "mut " * ("mut" in words), [it for it in words if it.isidentifier()][-1]
    pointer = f"{name}: *{mutable or 'const '}{homes.get(item, item)}"
    if "[" in words:
        return f"{pointer}, {name}_count: usize", f"slice{'_mut' if mutable else ''}({name}, {name}_count)"
    return pointer, f"&(*{name}).slices()" if item == TRIE else f"&{mutable}*{name}"


def function(module, found, homes):
    """A function of exports.rs, or nothing for the one that rust/handwritten/c_library/src/trie.rs has."""
    name, parameters, returned = ("".join(found[it]).strip() for it in ("$name", "$$parameters", "$$returned"))
    parts = [parameter(*it.strip().split(": "), homes) for it in parameters.split(",") if it.strip()]
    call = f"crate::{CRATE}::{module}::{name}({', '.join(it[1] for it in parts)})"
    call = f"unsafe {{ {call} }}" if any("*" in it[0] for it in parts) else call
    head = f"{name}({', '.join(it[0] for it in parts)}) -> {homes.get(returned, returned)}"
    return f'\n#[unsafe(no_mangle)]\npub unsafe extern "C" fn {head} {{\n    {call}\n}}\n' * (name != OPEN)


def exported(folder):
    """Makes safe functions of the package's exported ones, and writes those of C."""
    paths = sorted(glob.glob(f"{folder}/src/{CRATE}/*.rs"))
    modules = {os.path.basename(it)[:-3]: tokens_of(read(it)) for it in paths}
    structs = [(found["$name"][0], it) for it, tokens in modules.items() for _, _, found in matches(tokens, STRUCT)]
    homes = {name: f"crate::{CRATE}::{module}::{name}" for name, module in structs}
    exports, rules = HEAD, compiled(rules_of("exports"))
    for path, (module, tokens) in zip(paths, modules.items()):
        exports += "".join(function(module, found, homes) for _, _, found in matches(tokens, *CALLS))
        tokens = ruled(tokens, rules)
        if {"extern", "no_mangle"} & {*tokens}:
            raise Stop(f"crates/{CRATE}/src/{module}.rt: an exported function of a form that is not known")
        write(path, "".join(tokens))
    write(f"{folder}/src/exports.rs", exports)
