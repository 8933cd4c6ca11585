"""The comments of the Rust edition: docs without what they say to a prover, with the names of the
edition, and with the examples of rust/examples.

A file of rust/examples has the examples of one crate. Each starts with a line `//# MODULE ITEM`, and
replaces the example of that item, which is in Rattle, or comes before the item's headings. ITEM is
`mod` for the docs of the module itself; an empty example removes one.
"""
import glob
import os

from files import HERE, Stop, parts, read, rules_of, table
from tokens import after_gap, past_group, tokens_of

# What comments say in other words, beside paths: texts, and what replaces each.
WORDS = [it[:2] for it in rules_of("docs")]
WORDS += [(f"{mark}{it}(", f"{mark}try_{it}(") for it in table("tried")["library"].split() for mark in (".", "::", "`")]
# What the last line of an example with `?` says: the type of its errors.
ERRORS = "# Ok::<(), Box<dyn std::error::Error>>(())"
# How a line starts that begins or ends an example, and how a heading does.
FENCE, HEADING = "\n ```", "\n # "


def examples():
    """Returns the examples: for each module, pairs of an item and its example, as lines of docs."""
    found = {}
    for path in sorted(glob.glob(f"{HERE}/examples/*.rs")):
        for head, example in parts(read(path))[1:]:
            module, item = head.split() if " " in head else ("lib", head)
            lines = ["```", *example.splitlines(), *[ERRORS] * ("?" in tokens_of(example)), "```"]
            text = "".join(f"\n {it}" for it in lines) if example else ""
            found.setdefault(f"{os.path.basename(path)[:-3]}/{module}", []).append((item, text))
    return found


EXAMPLES = examples()


def mark_of(token):
    """Returns what a comment starts with, or nothing."""
    return next((it for it in ("///", "//!", "//") if token.startswith(it)), "")


class Block:
    """Lines of comments of one kind, one after another: their positions, their text, and the item behind
    them. Each line of the text starts with its line end."""

    def __init__(self, tokens, start):
        self.start, self.end, self.mark = start, start + 1, mark_of(tokens[start])
        while tokens[self.end].count("\n") == 1 and mark_of(tokens[self.end + 1]) == self.mark:
            self.end += 2
        self.text = "".join(f"\n{it[len(self.mark) :]}" for it in tokens[start : self.end : 2])
        self.gap = tokens[start + 1] if self.end > start + 1 else "\n"
        at = after_gap(tokens, self.end)
        while at < len(tokens) and tokens[at] in ("#", "pub", "const", "unsafe", "extern", '"C"', "("):
            at = after_gap(tokens, past_group(tokens, at + (tokens[at] == "#")))
        is_item = tokens[at : at + 1] and tokens[at] in ("fn", "struct", "enum", "trait")
        self.item = "mod" if self.mark == "//!" else tokens[after_gap(tokens, at + 1)] if is_item else ""


def renamed(crate, text):
    """Returns the text of comments with the names of this edition."""
    for said, put in [*WORDS, ("(crate::", f"(crate::{crate}::"), ("](icu_", "](crate::icu_")]:
        text = text.replace(said, put)
    return text


def first_heading(text):
    """Returns the position of the first heading, or of the end."""
    return (text + HEADING).index(HEADING)


def without_contract(text):
    """Removes the section `# Contract`, which says what a contract means."""
    before, mark, after = text.partition(f"{HEADING}Contract\n")
    return before.rstrip() + after[first_heading(after) :] if mark else text


def with_example(text, example):
    """Puts an example in place of that in Rattle, or else before the headings."""
    heading, (before, fence, after) = first_heading(text), text.partition(FENCE)
    after = after.partition(FENCE)[2]
    if fence and len(before) < heading:
        return before + example + after
    text = (before + after).rstrip() if fence else text
    return text[:heading].rstrip() + "\n" + example + "\n" * (heading < len(text)) + text[heading:]


def documented(crate, module, tokens, is_library):
    """Returns the tokens of a module with its comments as they are in the edition."""
    blocks, tokens = [], [*tokens, "", ""]
    for at, it in enumerate(tokens):
        if it.startswith("//") and (not blocks or at >= blocks[-1].end):
            blocks.append(Block(tokens, at))
            blocks[-1].text = without_contract(renamed(crate, blocks[-1].text))
    for item, example in EXAMPLES.get(module, []) if is_library else []:
        places = [it for it in blocks if it.item == item and it.mark != "//"]
        places = [it for it in places if FENCE in it.text] or places
        if len(places) != 1:
            raise Stop(f" rust/examples: expected one {item} with docs, found {len(places)}")
        places[0].text, places[0].item = with_example(places[0].text, example), ""
    for it in reversed(blocks):
        if is_library and it.item and FENCE in it.text:
            raise Stop(f" rust/examples has no example for {it.item}")
        lines = [f"{it.mark}{line}".rstrip() for line in it.text.split("\n")[1:]]
        tokens[it.start : it.end] = tokens_of(it.gap.join(lines))
    return tokens
