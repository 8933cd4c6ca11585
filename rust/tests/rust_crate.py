"""The Rust edition as rust/tests/run needs it: written anew, with its tests in it, or without what
depends on other crates."""
import filecmp
import glob
import importlib.machinery
import importlib.util
import os
import re
import shutil
import sys

import header
from memory_tests import calls_in
from rust_rules import (
    FORM_RULES, KNOWN, NOT_SWEPT, OTHER_HEADERS, TESTED, TEST_NAMES, TEST_RULES, UNKNOWN
)

TOP = os.path.dirname(os.path.dirname(os.path.dirname(os.path.realpath(__file__))))
PARTS = f"{TOP}/rust/tests/src"
README = f"{TOP}/rust/README.md"
# Sources of the crates of the features and of bincode, as Debian has them in librust-bincode-dev,
# librust-serde-derive-dev, librust-serde-json-dev and librust-toml-dev.
SOURCES = "/usr/share/cargo/registry"
HAS_FORMATS = all(glob.glob(f"{SOURCES}/{it}-*") for it in ("bincode", "serde_derive", "serde_json", "toml"))
HAS_CLAP = HAS_FORMATS and bool(glob.glob(f"{SOURCES}/clap-4*"))
# What rust/tests/src has that needs them.
FORMS = ["stored_forms"] if HAS_FORMATS else []


def read(path):
    with open(path, encoding="utf-8") as file:
        return file.read()


def write(path, text, mode="w"):
    with open(path, mode, encoding="utf-8") as file:
        file.write(text)


def maker():
    """rust/make as a module."""
    sys.path.insert(0, f"{TOP}/rust")
    loader = importlib.machinery.SourceFileLoader("make", f"{TOP}/rust/make")
    made = importlib.util.module_from_spec(importlib.util.spec_from_loader("make", loader))
    loader.exec_module(made)
    return made


def refuses_all(made, folder):
    """Whether rust/make stops at each unknown form, and turns each known one into what it is."""
    failed = []
    for number, text in enumerate([*UNKNOWN, *KNOWN]):
        path = f"{folder}/form{number}.rt"
        write(path, text)
        try:
            code = made.rust(path, "icu_zerovec", "icu_zerovec/form")
        except SystemExit as why:
            code = why
        if text in KNOWN and code != KNOWN[text] or text in UNKNOWN and isinstance(code, str):
            print(f"rust/make: {text!r} becomes {code!r}")
            failed.append(text)
    return not failed


def is_as_declared(folder):
    """Whether the C library has what c/bekstaudi.h declares, and no other header that is tried."""
    text = read(f"{TOP}/c/bekstaudi.h")
    failed = list(header.differences(f"{folder}/bekstaudi-c", text))
    for old, new in OTHER_HEADERS:
        if text.count(old) != 1 or not list(header.differences(f"{folder}/bekstaudi-c", text.replace(old, new))):
            failed.append(f"rust/tests/header.py does not see that a header has {new!r} for {old!r}")
    print(*failed, sep="\n", end="\n" if failed else "")
    return not failed


def files(folder):
    """The files of a package."""
    found = glob.glob(f"{folder}/**/*.*", recursive=True)
    return {os.path.relpath(it, folder) for it in found if os.path.isfile(it)} - {"Cargo.lock"}


def is_as_made(made, folder):
    """Whether the packages in rust/ are what rust/make writes."""
    made.packages(folder)
    if not shutil.which("rustfmt"):
        print("the packages are not compared with what rust/make writes: no rustfmt on PATH")
        return True
    failed = []
    for package in made.PACKAGES:
        new, kept = f"{folder}/{package}", f"{TOP}/rust/{package}"
        names = files(new) | {it for it in files(kept) if not it.startswith("target")}
        _, other, missing = filecmp.cmpfiles(new, kept, names, shallow=False)
        failed += [f"{package}/{it}" for it in sorted(other + missing)]
    for name in failed:
        print(f"rust/{name} is not what rust/make writes")
    return not failed


def sweeps_all(made):
    """Whether each public function that can report a failed allocation is named, as in the edition,
    by a test in rust/tests/src/public, which lets its allocations fail."""
    named = "".join(read(it) for it in glob.glob(f"{PARTS}/public/refused_*.rs"))
    failed = []
    for call, memory in calls_in(made).items():
        if memory == "answers" and f'"{call}"' not in named and not re.search(NOT_SWEPT, call):
            print(f"{call}: no test in rust/tests/src/public lets its allocations fail")
            failed.append(call)
    return not failed


def cut(folder):
    """Takes serde, JSON and TOML out of a crate, if the crates that they depend on are not installed."""
    path = f"{folder}/Cargo.toml"
    write(path, re.sub(r'"dep:\w+"|(?m:^(?:serde|serde_json|toml) = \{.*\n)', "", read(path)))


def add_tests(made, folder):
    """Puts the files of rust/tests/src into a crate that was made, and our crates that they call, as
    modules of its own."""
    made.make(folder, TESTED, TEST_RULES)
    for crate in TESTED:
        for path in glob.glob(f"{folder}/src/{crate}/**/*.rs", recursive=True):
            text = read(path)
            for pattern, put in FORM_RULES if not HAS_FORMATS else ():
                text = re.sub(pattern, put, text)
            place = re.match(r"(?://!.*\n)*\n*", text).end()
            write(path, text[:place] + TEST_NAMES + text[place:])
    shutil.copytree(PARTS, f"{folder}/src", dirs_exist_ok=True)
    shutil.copy(f"{TOP}/rust/handwritten/programs/bekstaudi-tables/src/ledger.rs", f"{folder}/src")
    shutil.move(f"{folder}/src/public", f"{folder}/tests")
    shutil.move(f"{folder}/src/refusing", folder)
    needed = '\n[dev-dependencies.refusing]\npath = "refusing"\n'
    needed += '\n[dev-dependencies.bincode]\nversion = "1.3"\n' if HAS_FORMATS else ""
    write(f"{folder}/Cargo.toml", needed, "a")
    names = "".join(
        f"#[cfg(test)]\n#[allow(dead_code, unused_imports, unused_variables)]\nmod {name};\n"
        for name in ["ledger", "runtime", "refusals", "memory", "icu_collections", "tables", "callers", "flags", *FORMS, *TESTED]
    )
    write(f"{folder}/src/lib.rs", f"#[cfg(test)]\nextern crate std;\n{names}", "a")


def add_caller(folder):
    """Writes a user's crate, whose program is the example in rust/README.md."""
    os.makedirs(f"{folder}/src")
    write(f"{folder}/Cargo.toml", '[package]\nname = "words"\nedition = "2024"\n')
    write(f"{folder}/src/main.rs", re.search(r"```rust\n(.*?)```", read(README), re.S)[1])
