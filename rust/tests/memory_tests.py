"""The tests of memory in rust/tests/src/memory and the functions that they list, compared with the
public functions of the libraries.

The last paragraph of such a test's comment starts with `Calls:` and lists the functions that the test
is about, by their names in the edition, as in

    /// Calls: `CodePointInversionListBuilder::try_add32`.

Each public function that returns an out-of-memory error has to be in the list of a test whose name
ends in _refused, each other one in that of a test whose name ends in _quiet. A function that only
takes an allocator may be in either, and conversions by `From` need none. What is listed must be a
public function, and the tests must call it.
"""
import glob
import os
import re
import sys

TOP = os.path.dirname(os.path.dirname(os.path.dirname(os.path.realpath(__file__))))
import public_calls
from rust_rules import ONLY_PROVED, OTHER_NAMES

SOURCES = f"{TOP}/rust/tests/src/memory"
# Functions that a `for`, an iterator's method or a `?` calls.
UNWRITTEN = {"next", "from"}
# A test of these two kinds, with its comment.
TEST = re.compile(
    r"^(?P<comment>(?:///[^\n]*\n)*)#\[test\]\nfn (?P<name>\w+_(?:refused|quiet))\(", re.M
)


def name_in(made, call):
    """The name in the edition of a function that the sources name so."""
    owner, name = call.rsplit("::", 1)
    tried = "try_" if name in [*made.TRIED, "build_from_writes"] else ""
    return OTHER_NAMES.get(call, f"{owner}::{tried}{name}")


def calls_in(made):
    """The public functions by their names in the edition, each with its kind."""
    calls = public_calls.public_calls()
    return {name_in(made, it): kind for it, kind in calls.items() if not re.search(ONLY_PROVED, it)}


def tests_of(text):
    """The tests of these two kinds in a source: each by its name, with the functions that it lists."""
    for test in TEST.finditer(text):
        said = re.sub(r"\s*///\s*", " ", test["comment"]).partition(" Calls:")[2]
        yield test["name"], re.findall(r"`([^`]+)`", said)


def missing(calls, named):
    """What is wrong with the lists of the tests, compared with the public functions."""
    refused, quiet = (
        {it for test, found in named.items() if test.endswith(end) for it in found}
        for end in ("_refused", "_quiet")
    )
    covered = {"answers": refused, "takes": refused | quiet, "none": quiet, "converts": calls}
    for call, memory in sorted(calls.items()):
        if call not in covered[memory]:
            wanted = "lets its allocations fail" if memory == "answers" else "checks that it allocates nothing"
            yield f"{call}: no test in rust/tests/src/memory {wanted}"
    for call in sorted((refused | quiet) - calls.keys()):
        yield f"{call}: a test lists it, but it is no public function"


def unwritten(named, words):
    """The tests that list nothing, or functions that no test calls. `words` are all in the code."""
    for test, calls in named.items():
        if not calls:
            yield f"{test}: its comment lists no function after `Calls:`"
        for call in calls:
            if call.split("::")[-1] not in words:
                yield f"{test}: no test calls {call}"


def lists_all(made):
    """Whether the tests list all public functions, and call what they list."""
    named, words = {}, set(UNWRITTEN)
    for path in sorted(glob.glob(f"{SOURCES}/**/*.rs", recursive=True)):
        with open(path, encoding="utf-8") as file:
            text = file.read()
        words.update(re.findall(r"\w+", public_calls.plain(text)))
        place = os.path.relpath(path, SOURCES)[:-3].replace("/", "::")
        named.update({f"{place}::{name}": calls for name, calls in tests_of(text)})
    calls = calls_in(made)
    faults = [*missing(calls, named), *unwritten(named, words)]
    print(*faults, sep="\n", end="\n" if faults else "")
    kinds = list(calls.values())
    print(
        f"{len(kinds) - kinds.count('converts')} public functions besides conversions,",
        f"of which {kinds.count('answers')} return an out-of-memory error, in {len(named)} tests",
    )
    return not faults
