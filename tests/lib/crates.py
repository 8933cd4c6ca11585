"""The crates of crates.txt, the files that a proved one is built into, and the words with which `rattle`
reads a crate over the libraries that `rt ci` has left in the folders out/rlib of those below."""
import os
import re
import shutil
import sys

from scripts import TOP, read

KIT = os.path.dirname(os.path.dirname(os.path.realpath(shutil.which("rt") or "/none/bin/rt")))
# The folders of a crate that a proof reads.
PARTS = ("src", "specs", "proofs")


class Crate:
    """A line of crates.txt."""

    def __init__(self, name, kind, words, found):
        self.name, self.folder, self.is_static = name, f"{TOP}/crates/{name}", kind == "staticlib"
        self.deps = [found[it] for it in words if it in found]
        self.of_kit = ["std", *(it for it in words if it not in found)]
        self.is_program = os.path.exists(f"{self.folder}/src/main.rt")

    def below(self):
        """The crates of the repository that this one uses, directly or not."""
        return list(dict.fromkeys(it for dep in self.deps for it in [*dep.below(), dep]))

    def words(self):
        """The words for `rattle check` and `rattle build`, in the crate's folder or a copy of it."""
        words = ["--crate-name", self.name, f"src/{'main' if self.is_program else 'lib'}.rt"]
        words += ["--crate-type", "staticlib"] if self.is_static else []
        words += ["--antt-project", f"{KIT}/rattle/logic/antt-project.json", "--logic-built", f"{KIT}/logic_built"]
        libraries = {it: f"{KIT}/rlibs/{it}.rlib" for it in self.of_kit}
        libraries.update({it.name: f"{it.folder}/out/rlib/{it.name}.rlib" for it in self.deps})
        for name, path in libraries.items():
            words += ["--extern", f"{name}={path}"]
        for folder in [f"{KIT}/rlibs", *(f"{it.folder}/out/rlib" for it in self.below())]:
            words += ["-L", f"dependency={folder}"]
        return words

    def lacking(self):
        """The libraries below that are not proved here."""
        return [it.name for it in self.below() if not os.path.exists(f"{it.folder}/out/rlib/{it.name}.rlib/format")]

    def demand_below(self):
        """Ends the script if a library below is not proved here."""
        if lacking := self.lacking():
            sys.exit(f"{self.name} is over {' '.join(lacking)}, not proved here: run `rt ci` first, at the top")


def crates():
    """The crates by their names, lowest first."""
    found = {}
    for name, kind, words in re.findall(r"(?m)^(\w+) ?(\w*): ?(.*)$", read(f"{TOP}/crates.txt")):
        found[name] = Crate(name, kind, words.split(), found)
    return found


def program(name):
    """The path of a program that `rt ci` or `rt run` has proved and built."""
    path = f"{TOP}/crates/{name}/out/{name}"
    return path if os.path.exists(path) else sys.exit(f"{name} is not proved here: run `rt ci` first, at the top")
