"""The examples in C and C++, as c/tests/run runs them."""
import os
import shutil
import subprocess

from running import BUILD, CC, CXX, STRICT, TOP, passes, prints

# From tests/lib, which running.py puts on the path.
import example_programs

ILL_FORMED = "a Ll\nb Ll\nE4 B8 ill-formed\nc Ll\nd Ll\n"


def examples(room, icu):
    """The library installed, and the examples as a user runs them. ICU4C makes one table, if it is there."""
    yield passes("c/build PREFIX", [*BUILD, f"{room}/usr"])
    flags = [f"-I{room}/usr/include", f"-L{room}/usr/lib", f"-Wl,-rpath,{room}/usr/lib", "-lbekstaudi"]
    code, text = f"{TOP}/c/examples", "A\u00df7 \u4e16\U0001f600\u0301"
    tables = [f"{TOP}/data/general_category.bin"]
    if icu:
        yield from made_by_icu(room, flags)
        tables.append(f"{room}/gc.bin")
    shown = "".join(f"{it} {kind}\n" for it, kind in zip(text, "Lu Ll Nd Zs Lo So Mn".split()))
    programs = {"categories.c": (CC, "c99", [], shown), "letters.cpp": (CXX, "c++17", [], "A\u00df\n\u4e16\n")}
    programs["kept.cpp"] = (CXX, "c++17", tables[-1:], "A\u00df7 \u4e16\n")
    for source, (compiler, standard, files, wanted) in programs.items():
        if shutil.which(compiler):
            words = [compiler, f"-std={standard}", *STRICT, "-o", f"{room}/shown", f"{code}/{source}"]
            yield passes(source, [*words, *flags])
            yield prints(source, [f"{room}/shown", *files, text], wanted, os.environ)
            ill_formed = {"letters.cpp": "ab\ncd\n", "kept.cpp": "abcd\n"}.get(source, ILL_FORMED)
            yield prints(source, [f"{room}/shown", *files, b"ab\xe4\xb8cd"], ill_formed, os.environ)
    if shutil.which(CXX):
        lines = f"{text}\n\n" * 9000
        yield prints("kept.cpp", [f"{room}/shown", tables[0]], "A\u00df7 \u4e16\n\n" * 9000, os.environ, lines)
    yield from dictionary(room, flags)
    yield from graphemes(room, flags) if example_programs.has_unicode_data("graphemes.c") else []


def dictionary(room, flags):
    """A text cut into the words of a list, as a dict of Python finds them."""
    words = f"{room}/words.icu"
    yield example_programs.write_words(f"{TOP}/ucptrie", f"{room}/words.txt", words)
    yield passes("dictionary.c", [CC, "-std=c99", *STRICT, "-o", f"{room}/dictionary", f"{TOP}/c/examples/dictionary.c", *flags])
    yield prints("dictionary.c", [f"{room}/dictionary", words], example_programs.pieces(), os.environ, example_programs.text())


def graphemes(room, flags):
    """The clusters of the texts of Unicode's GraphemeBreakTest.txt."""
    example_programs.write_breaks(f"{room}/breaks.txt")
    build = [f"{TOP}/ucptrie", "build", f"{room}/breaks.txt", "--width", "8", "--as", "bks"]
    yield passes("breaks.h", [*build, "--name", "breaks", "-o", f"{room}/breaks.h"])
    words = [CC, "-std=c99", *STRICT, f"-I{room}", "-o", f"{room}/graphemes", f"{TOP}/c/examples/graphemes.c"]
    yield passes("graphemes.c", [*words, *flags])
    cut = lambda text: subprocess.run([f"{room}/graphemes", text], stdout=subprocess.PIPE).stdout
    texts = example_programs.clusters()
    wrong = [it for it in texts if cut("".join(it)) != f"{'|'.join(it)}\n".encode()]
    print(f"graphemes.c: {len(texts)} texts of Unicode, {len(wrong)} wrong")
    yield len(texts) > 500 and not wrong


def made_by_icu(room, flags):
    """The table that ICU4C makes, as gc.bin, and the comparison of the header's table with ICU4C."""
    yield passes("make_table.c", [CC, *STRICT, "-o", f"{room}/make_table", f"{TOP}/c/examples/make_table.c", "-licuuc"])
    with open(f"{room}/gc.bin", "wb") as table:
        yield subprocess.run([f"{room}/make_table"], stdout=table).returncode == 0
    yield passes("categories_icu.c", [CC, *STRICT, "-o", f"{room}/categories", f"{TOP}/c/tests/categories_icu.c", *flags, "-licuuc"])
    yield os.path.exists(f"{room}/categories") and passes("categories_icu", [f"{room}/categories"])
