"""What edits of a crate change, and what a check of it reports, for tests/gate/wrong_bodies."""
import os
import re

from edits import edited, pairs_of
from scripts import read

# An open statement: its file and line, and its name.
OPEN = re.compile(
    r"(?:note: )?(\S+?):(\d+):\d+: (?:it is not proved that .*?|.*? is not proved.*?)\(`([^`]+)`\)"
)
# An answer in a proof file that no longer proves its statement.
ANSWER = re.compile(r"(?:note: )?(?:\./)?(proofs/\S+?):(\d+):\d+: error: `([^`]+)`")
# Errors about names that no longer exist, or about answers to statements that no longer exist.
NAMES = re.compile(
    r"has no field|is not in scope|has no `|was not admitted|`Goals` has no|names? no "
)
# A function of a module or a type.
FUNCTION = re.compile(r"^(?P<own>    )?(?:pub(?:\(.*?\))? )?(?:const )?fn (?P<name>\w+)", re.M)
# The line before the body of a function.
OPENS = re.compile(r"^\s*(?:.*\bfn .*|\).*)?\{$", re.M)
# The files whose functions belong to the crate itself, not to a module.
ROOTS = ("lib", "main")
# Errors of a text that makes no sense, where an edit that only makes a statement false does.
UNREAD = re.compile(r"is not in scope|has no field|is no name|operand is missing|expected the end|cannot continue")
# Errors that only say that a loop has no proof yet.
LOOP = re.compile(r"^(?:invariant|decreases)-|expected (?:a measure|an invariant)")


def reasons(said):
    """The statements that a check's output reports as false or open, each with its file and line, and
    the other errors in it."""
    said = re.sub(r"\n(?=\s*(?:has no field|is not in scope|record `))", " ", said)
    statements, other = {}, []
    for line in said.split("\n"):
        found = OPEN.match(line) or not NAMES.search(line) and ANSWER.match(line)
        if found and not LOOP.search(found[3]):
            statements[found[1], int(found[2]), found[3]] = None
        elif re.match(r"(?:note: )?\S+:\d+:\d+: error", line):
            other.append(line)
    return list(statements), other


def owner_of(text):
    """The type and the trait of the `impl` in which a piece of a file ends, if it ends in one."""
    item = re.findall(r"^(?:impl.*|\})", text, re.M)[-1:]
    owner = re.match(r"impl(?:<.*?>)? (?:(?:\w+::)*(\w+)(?:<.*>)? for )?&?(\w+)", item[0] if item else "")
    return (owner[2], owner[1] or "") if owner else ("", "")


def last_function(path, text):
    """The last function in a piece of a file, by its type or module, and its name."""
    name = re.findall(r"\bfn (\w+)", text)[-1:]
    owned = "".join(owner_of(text)) or os.path.basename(path)[: -len(".rt")]
    return "::".join([*([] if owned in ROOTS else [owned]), *name])


def function_at(crate, texts, path, line):
    """The function that an error at this line is about. `texts` replaces files of the crate."""
    if not path.startswith("src/"):
        return "::".join(path.split("/")[1:-1][-2:])
    text = texts.get(path) or read(f"{crate.folder}/{path}")
    # Errors about an item are reported at its attributes.
    before = re.match(rf"(?:.*\n){{{line - 1}}}(?:\s*(?:#|//).*\n)*.*", text)
    return last_function(path, before[0])


def is_in_body(text):
    """Whether a piece of a file ends inside the body of its last function."""
    lines = re.split(r"^(?=.*\bfn )", text, flags=re.M)[-1].split("\n")
    end = lines[0][: len(lines[0]) - len(lines[0].lstrip())] + "}"
    opens = [OPENS.fullmatch(it) for it in lines[:-1]]
    begins = next((at for at, it in enumerate(opens) if it), len(lines))
    return begins < len(lines) and end not in lines[begins:-1]


def changed(crate, edit):
    """The functions that an edit changes, and whether it changes only their bodies."""
    found, bodies = {}, True
    for path, old, _ in pairs_of(edit):
        whole = read(f"{crate.folder}/{path}")
        before = whole[: whole.find(old) + len(old)]
        found[last_function(path, before)] = None
        bodies = bodies and is_in_body(before) and not re.search(r"\bfn ", old)
    return list(found), bodies


def together(crate, edits):
    """The edits in parts that can each be tried in one check: they change only bodies, and those of
    different functions."""
    parts, lone = [], []
    for name, edit in edits.items():
        functions, bodies = changed(crate, edit)
        for taken, some in parts if bodies else []:
            if not taken & set(functions) and not edited("".join([*some.values(), edit]), crate.folder)[1]:
                taken.update(functions)
                some[name] = edit
                break
        else:
            (parts if bodies else lone).append((set(functions), {name: edit}))
    return [some for _, some in [*parts, *lone]]


def unread(line, changed_files):
    """Whether a line of a check says that a text of src/, specs/ or a changed file cannot be read."""
    at = re.match(r"(?:\./)?(\S+?):\d+:\d+: error: (?:(`[^`]*`): )?(.*)", line)
    if not at or at[1] not in changed_files and not at[1].startswith(("src/", "specs/")):
        return False
    return not at[2] or bool(UNREAD.search(re.sub(r"`[^`]*`", "", at[3])))
