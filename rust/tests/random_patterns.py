"""Random patterns of sets, which rust/examples/set_patterns and ICU read alike."""
import random

# What the patterns of sets are made of: sets, other items, and what mostly makes them faulty.
PROPERTIES = r"""[:L:] [:^Lu:] \p{Greek} \P{Alphabetic} \p{gc=Nd} \p{Script=Han} [:ascii:] \p{sc=Latn} \p{wspace}
\p{Emoji} [:Math:] \P{C} \p{General_Category=Cased_Letter}""".split()
ITEMS = r"""a-z A-F 0-9 \u0300-\u036F b-y \x41-\x{5A} \U0001F600-\x{1F64F} a z 5 \- \u4E00 \x{1F600} \n \] }
{ch} {a} {} {xyz} {\u00E9t} {[-}""".split() + ["{l l}", "a - z", "é", "一-丁"]
FAULTS = r"- & ^ $ ] [ z-a a-a \x{110000} \x{} \u12 \p{nonsense} \p{Sc=Lu} \pL".split()


def random_set(chance, depth):
    """A pattern of a set, mostly well-formed: a property, or items and sets with operators between them."""
    if depth == 0 or chance.random() < 0.25:
        return chance.choice(PROPERTIES)
    pattern = chance.choice(["[", "[", "[", "[^", "[ ", "[-"])
    for _ in range(chance.randrange(4)):
        if chance.random() < 0.5:
            pattern += random_set(chance, depth - 1)
            while chance.random() < 0.5:
                pattern += chance.choice(["&", "-", " & ", " - "]) + random_set(chance, depth - 1)
        pattern += chance.choice(ITEMS if chance.random() < 0.9 else FAULTS)
    return pattern + chance.choice(["]", "]", "]", "]", "-]", " ]", "$]"])


def add_patterns(path):
    """Adds 3,000 random patterns of sets, always the same ones, to a file with one in each line."""
    chance = random.Random(1)
    with open(path, "a", encoding="utf-8") as out:
        out.writelines(f"{random_set(chance, 3)}\n" for _ in range(3000))
