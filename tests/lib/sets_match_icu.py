"""The part of tests/gate/properties_match_icu about sets: what `ucptrie set` makes of Unicode's files, against
ICU at all code points."""
import re
import shutil

from scripts import TOP, WITH_ICU, ran, read, write

# The forms that are compared, with the suffixes of their files.
FORMS = {"icu": "icu", "c": "h", "c-frozen": "frozen.h", "rust": "rs", "rust-frozen": "frozen.rs"}

def written(program, room, name, words):
    """Writes a set in all forms, and returns what went wrong."""
    for form, end in FORMS.items():
        to = name + ("_frozen" if end.startswith("frozen") else "")
        done = ran([program, "set", *words, "--as", form, "--name", to, "-o", f"{name}.{end}"], cwd=room)
        if done.returncode or done.stderr:
            return done.stderr
    return ""


def lists(room, named):
    """Writes what the two programs include: the sources of the sets, and a row for each. `named` are names and
    properties."""
    each = lambda form: "".join(form.format(name, prop) for name, prop in named)
    write(f"{room}/sets.h", each('#include "{0}.h"\n#include "{0}.frozen.h"\n'))
    write(f"{room}/rows.h", each('SET({0}, "{1}")\n'))
    write(f"{room}/sets.rs", each('include!("{0}.rs");\ninclude!("{0}.frozen.rs");\n'))
    write(f"{room}/rows.rs", "[" + each('("{0}", {0}::contains), ("{0}", {0}_frozen::contains),') + "]")


def compared(room):
    """What ICU's ranges are, and what differs from ICU in the C sources and the serialized sets."""
    flags = ["-std=c11", "-O1", "-Wall", "-Wextra", "-Werror", f"-I{TOP}/c", "-I."]
    done = ran(["cc", *flags, "-o", "sets", f"{WITH_ICU}/file_sets.c", "-licuuc"], cwd=room)
    if done.returncode or done.stderr:
        return "", done.stderr
    done = ran(["./sets"], cwd=room)
    return done.stdout, done.stderr


def rust_faults(room, named, ranges):
    """What is wrong with the Rust sources."""
    if not shutil.which("rustc"):
        return
    # The sources are included from where this is.
    shutil.copy(f"{WITH_ICU}/file_sets.rs", f"{room}/main.rs")
    done = ran(["rustc", "--edition", "2021", "-O", "-D", "warnings", "-o", "main", "main.rs"], cwd=room)
    if done.returncode or done.stderr:
        yield done.stderr
        return
    each = re.split(r"(?m)^(?=[A-Za-z]\w*$)", ranges)[1:]
    if ran(["./main"], cwd=room).stdout != "".join(it + it for it in each):
        yield "the Rust sources have other ranges than ICU\n"
    if shutil.which("rustfmt"):
        done = ran(["rustfmt", "--check", f"{named[0][0]}.rs", f"{named[0][0]}.frozen.rs"], cwd=room)
        if done.returncode:
            yield f"rustfmt changes the Rust sources: {done.stdout}{done.stderr}"


def set_faults(program, room, properties):
    """What is wrong with the sets of these properties: names, and the words that read them."""
    named = []
    for prop, words in properties:
        name = f"set{len(named)}"
        if wrong := written(program, room, name, words):
            yield f"the set of {prop}: {wrong}"
            return
        named.append((name, prop))
    lists(room, named)
    ranges, wrong = compared(room)
    if wrong:
        yield wrong
    yield from rust_faults(room, named, ranges)
