"""The wrong bodies of a crate, which its file wrong-bodies.txt has: edits of its files."""
import os
import sys

from scripts import read


def wrong_bodies_of(folder):
    """The wrong bodies of the crate in a folder: the text of each edit by its name."""
    path, found = f"{folder}/wrong-bodies.txt", {}
    if not os.path.exists(path):
        return found
    blocks = read(path).split("\n\n")
    for block in blocks:
        lines = [it for it in block.split("\n") if it and not it.startswith("#")]
        if lines and lines[0] in found:
            sys.exit(f"{path}: two wrong bodies have the name {lines[0]}")
        if lines:
            found[lines[0]] = "\n".join(lines[1:]) + "\n"
    return found


def pairs_of(edit):
    """What an edit replaces: for each pair of `old:` and `new:` the file, and both texts."""
    path, old = None, None
    for line in edit.splitlines():
        kind, _, text = line.partition(":")
        text = text.removeprefix(" ")
        if kind == "file":
            path = text.strip()
        elif kind == "old":
            old = text
        elif kind == "new":
            yield path, old, text


def edited(edit, folder):
    """The texts of the files of a crate that an edit changes, by their paths there, and why it does not apply:
    a line for each text that it could not replace."""
    texts, faults = {}, []
    for path, old, new in pairs_of(edit):
        if path not in texts:
            if not os.path.isfile(f"{folder}/{path}"):
                faults.append(f"there is no file {path}")
                break
            texts[path] = read(f"{folder}/{path}")
        count = texts[path].count(old)
        if count != 1:
            faults.append(f"expected its text once in {path}, found {count} times: {old.strip()}")
        elif old == new:
            faults.append(f"it changes nothing: {old.strip()}")
        texts[path] = texts[path].replace(old, new, 1)
    return texts, faults if texts or faults else ["it has no pair of `old:` and `new:`"]
