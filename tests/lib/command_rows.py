"""The rows in tests/data/command_lines. tests/data/README.md says how they are written."""
import itertools
import os
import re
import shlex

DATA = f"{os.path.dirname(os.path.realpath(__file__))}/../data/command_lines"
ESCAPES = {b"r": b"\r", b"t": b"\t", b"\\": b"\\"}


def bytes_of(text):
    """The bytes that the text of a line stands for."""
    is_cut = re.search(r"(?<!\\)(?:\\\\)*\\$", text)
    said = (text[:-1] if is_cut else text + "\n").encode()
    byte = lambda it: ESCAPES.get(it[1]) or bytes([int(it[1][1:], 16)])
    return re.sub(rb"\\(r|t|\\|x[0-9a-f]{2})", byte, said)


def word_of(text):
    """A word of a command line, in which \\xHH is this byte."""
    byte = lambda it: bytes([int(it[1], 16)])
    return os.fsdecode(re.sub(rb"\\x([0-9a-f]{2})", byte, os.fsencode(text)))


def changed(source, changes):
    """The bytes of a file of the data, with some of them changed."""
    found = bytearray(open(f"{DATA}/{source}", "rb").read())
    for change in changes:
        old, sign, new = re.split("([=>])", change)
        if sign == "=":
            found[int(old)] = int(new)
        else:
            found = bytearray(bytes(found).replace(old.encode(), new.encode()))
    return bytes(found)


class Row:
    """Lines that belong together: what is run, over what, and what is wanted."""

    def __init__(self, lines):
        self.lines = lines

    def texts(self, kind):
        """The texts of the lines of a kind."""
        return [text for it, text in self.lines if it == kind]

    def text(self, kind):
        """The bytes of the lines of a kind."""
        return b"".join(bytes_of(it) for it in self.texts(kind))

    def files(self):
        """The files beside, by their names."""
        found = {}
        for kind, text in self.lines:
            name, _, rest = text.partition(" ")
            if kind == "@":
                found[name] = found.get(name, b"") + bytes_of(rest)
            elif kind == "+":
                source, *changes = shlex.split(rest)
                found[name] = found.get(name, b"") + changed(source, changes)
        return found

    def commands(self):
        """For each run the words of its command lines."""
        lines = [shlex.split(it) for it in self.texts("$")]
        choices = [word.split("|") for words in lines for word in words]
        for chosen in itertools.product(*choices):
            left = map(word_of, chosen)
            yield [[next(left) for _ in words] for words in lines]

    def settings(self):
        """The values of the words behind `?`, for each run."""
        given = dict(it.partition(" ")[::2] for it in self.texts("?"))
        given.pop("memory", None)
        numbers = {it.upper(): given[it].split() for it in given if given[it]}
        for chosen in itertools.product(*numbers.values()):
            yield dict(zip(numbers, chosen))

    def memory(self):
        """The status of a run in which an allocation fails, or None if none is to fail."""
        given = dict(it.partition(" ")[::2] for it in self.texts("?"))
        return int(given["memory"] or 1) if "memory" in given else None

    def inputs(self):
        """The input of each run."""
        lines = [bytes_of(it) for it in self.texts("<")]
        return lines if "each" in self.texts("?") else [b"".join(lines)]

    def runs(self):
        """The command lines, the settings and the input of each run."""
        return itertools.product(self.commands(), self.settings(), self.inputs())

    def status(self):
        return int("".join(self.texts("=")) or 0)

    def output(self):
        """All of the output, or None where the row does not say it."""
        files = self.texts(">>")
        if files:
            return open(f"{DATA}/{files[0]}", "rb").read()
        return None if self.texts("~") else self.text(">")


def rows_of(path):
    """The rows of a file."""
    for part in open(path, encoding="utf-8").read().split("\n\n"):
        lines = [it.partition(" ")[::2] for it in part.split("\n") if not it.startswith("#")]
        lines = [it for it in lines if it[0]]
        if lines:
            yield Row(lines)
