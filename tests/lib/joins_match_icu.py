"""The part of tests/gate/properties_match_icu about joined tables: what `ucptrie join` makes of Unicode's
files, against ICU's properties at all code points in C, and against the tables of the single properties in
Rust."""
import shutil

from scripts import TOP, WITH_ICU, ran

FILES = "/usr/share/unicode"
ALIASES = [it for name in ("PropertyValueAliases", "PropertyAliases") for it in ("--aliases", f"{FILES}/{name}.txt")]
# The properties that are joined, by their files.
COLUMNS = ["EastAsianWidth.txt:ea", "emoji/emoji-data.txt:Emoji_Presentation,Extended_Pictographic",
           "DerivedCoreProperties.txt:Alphabetic,XID_Start", "UnicodeData.txt:Bidi_M", "extracted/DerivedCombiningClass.txt:ccc",
           "auxiliary/WordBreakProperty.txt:WB"]
STRICT = ["-std=c99", "-Wall", "-Wextra", "-Wpedantic", "-Wconversion", "-Werror", "-O1"]


def commands(program):
    """The commands that make the sources and compare them, each with its words."""
    joined = [program, "join", *(f"{FILES}/{it}" for it in COLUMNS), *ALIASES, "--name", "joined"]
    yield [*joined, "--as", "c", "-o", "joined.h"]
    yield ["cc", *STRICT, "-I.", "-o", "joined", f"{WITH_ICU}/joins.c", "-licuuc"]
    yield ["./joined"]
    yield [*joined, "--as", "bks", "-o", "over_bks.c"]
    yield ["cc", *STRICT, f"-I{TOP}/c", "-fsyntax-only", "over_bks.c"]
    if not shutil.which("rustc"):
        return
    yield [*joined, "--as", "rust", "-o", "joined.rs"]
    for name, words in ("ea", ["EastAsianWidth.txt", "ea", *ALIASES]), ("emoji", ["emoji/emoji-data.txt", "Emoji_Presentation"]):
        words = [f"{FILES}/{words[0]}", "--property", *words[1:], "--width", "8"]
        yield [program, "build", *words, "--as", "rust", "--name", name, "-o", f"{name}.rs"]
    yield ["cp", f"{WITH_ICU}/joins.rs", "alike.rs"]
    yield ["rustc", "--edition", "2021", "-O", "-D", "warnings", "-o", "alike", "alike.rs"]
    yield ["./alike"]


def join_faults(program, room):
    """What is wrong with a joined table: the first command that fails, on which the others depend."""
    for words in commands(program):
        done = ran(words, cwd=room)
        if done.returncode:
            yield f"joined: {words[0]}: {done.stdout}{done.stderr}"
            return
