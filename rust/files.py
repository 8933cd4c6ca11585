"""Reads and writes files for rust/make, and reads rust/translation_rules.txt."""
import os

HERE = os.path.dirname(os.path.realpath(__file__))


class Stop(Exception):
    """Why rust/make cannot go on."""


def read(path):
    with open(path, encoding="utf-8") as file:
        return file.read()


def write(path, text):
    with open(path, "w", encoding="utf-8") as file:
        file.write(text)


def parts(text, mark="//# "):
    """Returns the parts of a text that start with a line `//# NAME`, each with its NAME, and first what is
    before them, with an empty one."""
    return [it.partition("\n")[::2] for it in ("\n" + text).split("\n" + mark)]


def file_of(module):
    """Returns the file of a module below a package's folder `src`."""
    folder, _, name = module.rpartition("/")
    return f"{folder}/{'mod' if name in ('lib', 'main') else name}.rs"


def section(name):
    """Returns the lines of a section of rust/translation_rules.txt."""
    lines = read(f"{HERE}/translation_rules.txt").split(f"== {name}\n")[1].split("\n== ")[0].splitlines()
    return [it for it in lines if it.strip() and not it.startswith("//")]


def table(name):
    """Returns a table of rust/translation_rules.txt: words by their keys. A line that is indented goes on."""
    rows = "\n".join(section(name)).replace("\n    ", " ").splitlines()
    return {key: words for key, _, words in (it.partition(": ") for it in rows)}


def rules_of(name):
    """Returns the rules of a section of rust/translation_rules.txt: pattern, replacement, example and result."""
    forms, examples, words = [], [], [""]
    for line in section(name):
        if line.startswith("each "):
            words = (" ".join(table("tried").values()) if "[tried]" in line else line[5:]).split()
        else:
            is_example = line.startswith(" ")
            for key, _, value in (it.partition("=") for it in words):
                sides = line.replace("@", key).replace("%", value).replace("\\n", "\n").split("==>")
                (examples if is_example else forms).append([it.strip() for it in sides])
            words = [""] if is_example else words
    return [(*form, *example) for form, example in zip(forms, examples, strict=True)]
