"""Copies of a crate in which only a few functions are checked, for tests/gate/wrong_bodies."""
import glob
import os
import re
import shutil

from refusals import FUNCTION, OPENS, last_function, owner_of
from scripts import read, write

# A proof that is left open.
HOLE = """use Rattle.{crate}.proofs.{path}.Statement.{{statement}}

pub {name}_spec : {{M : Type 1}} → statement M
{name}_spec = ?
"""
# A type that a crate declares.
TYPE = re.compile(r"^(?:pub(?:\(.*?\))? )?(?:struct|enum) (\w+)", re.M)


def put_hole(crate, folder, names):
    """Replaces the proof of a function in a copy of the crate by a hole. The names are its path."""
    proof = f"{folder}/proofs/{'/'.join(names)}"
    shutil.rmtree(proof, ignore_errors=True)
    os.makedirs(proof)
    write(f"{proof}/Proof.antt", HOLE.format(crate=crate.name, path=".".join(names), name=names[-1]))


def module_of(inside):
    """The path of the module that a file of a crate contains."""
    names = inside[len("src/") : -len(".rt")].split("/")
    return [it for it in names if it not in ("lib", "main", "mod")]


def leave_open(crate, folder, texts, functions):
    """Replaces the proof of every other function in a copy of the crate by a hole, and its body by a
    loop, about which nothing has to be proved. So only these functions are checked, against the
    contracts of what they call. `texts` has the contents of files that differ from the copy's; it is
    changed in the same way, and the other files are added. A body keeps its number of lines."""
    for path in glob.glob(f"{folder}/src/**/*.rt", recursive=True):
        inside = path[len(f"{folder}/") :]
        texts[inside] = texts.get(inside) or read(path)
    # The module that declares a type: rattle reports its functions there, whatever file the `impl` is in.
    homes = {name: module_of(it) for it, text in texts.items() for name in TYPE.findall(text)}
    for inside, text in texts.items():
        bodies = []
        for found in FUNCTION.finditer(text):
            before = text[: found.end()]
            owner, of_trait = owner_of(before)
            is_plain = bool(found["own"]) == bool(owner) and not of_trait
            body = text[found.end() :].partition(f"\n{found['own'] or ''}}}")[0]
            is_cycle = "#[cycle" in before.rsplit("\n\n", 1)[-1] or f"{found['name']}(" in body
            if not is_plain or is_cycle or last_function(inside, before) in functions:
                continue
            names = [*homes.get(owner, module_of(inside)), *([owner] if owner else []), found["name"]]
            put_hole(crate, folder, names)
            begins = OPENS.search(found[0] + body)
            if begins and "const fn" not in found[0]:
                bodies.append((found.start() + begins.end(), found.end() + len(body)))
        for start, end in reversed(bodies):
            lines = "\n" * text.count("\n", start, end)
            text = f"{text[:start]}loop {{}}{lines}{text[end:]}"
        texts[inside] = text
