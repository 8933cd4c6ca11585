"""The pictures of docs/CONCEPTS.md, from the rows of data/general_category.txt and what ucptrie makes of
them."""
from picture import BLUE, GREEN, GREY, INK, PALE, Picture

# The general categories by the start of their names: what is shown for them, and its colour.
CLASSES = {
    "Lu": ("uppercase", "#083d7a"),
    "Ll": ("lowercase", "#4f9bef"),
    "L": ("other letter", "#0b62c4"),
    "M": ("mark", "#8250df"),
    "N": ("number", "#1a7f45"),
    "P": ("punctuation", "#bf5a00"),
    "S": ("symbol", "#c9267a"),
    "Z": ("separator", "#5a6670"),
    "Co": ("private use", "#e8c468"),
    "C": ("control, unassigned", "#d0d7de"),
}
# The blocks of 64 code points in the picture of a trie.
BLOCKS = (0x0000, 0x0040, 0x0400, 0x0440, 0x0480, 0x4E00, 0x4E40, 0x4E80, 0xE000, 0xE040)
WORDS = {"car": 2, "cat": 3, "category": 4}


def draw_trie(trie, names):
    """Blocks of 64 code points, of which equal ones share their cells in the data."""
    index, data = trie["index"], trie["data"]
    heading = "A fast code point trie: one index cell for each block of 64 code points"
    shared = len({tuple(data[it : it + 64]) for it in index[:1024]})
    said = f"general categories: the 1,024 blocks below U+10000 need {shared} different blocks of data, which may overlap"
    picture = Picture(1000, 430, "Equal blocks of a code point trie share their cells", heading, said)
    offsets = sorted({index[it // 64] for it in BLOCKS})
    width, top, below = 940 / len(BLOCKS), 118, 236
    x_of = {it: 30 + 940 * (2 * k + 1) / (2 * len(offsets)) for k, it in enumerate(offsets)}
    picture.text(30, 90, "index: the offset of each block", BLUE)
    for k, first in enumerate(BLOCKS):
        x, offset = 30 + width * (k + 0.5), index[first // 64]
        picture.text(x, top, f"U+{first:04X}", GREY, text_anchor="middle", font_size=12)
        picture.box(x - 34, top + 8, 68, 26, BLUE, rx=3)
        picture.text(x, top + 26, offset, "#ffffff", text_anchor="middle")
        picture.line(x, top + 34, x_of[offset], below - 22, GREY, stroke_width=1)
    for offset in offsets:
        picture.text(x_of[offset], below - 8, f"from cell {offset}", INK, text_anchor="middle", font_size=12)
        for k, value in enumerate(data[offset : offset + 64]):
            _, colour = CLASSES.get(names[value]) or CLASSES[names[value][0]]
            picture.box(x_of[offset] - 48 + 12 * (k % 8), below + 12 * (k // 8), 11, 11, colour, rx=1)
    x = 30
    picture.text(x, 362, "data: 64 values in each block, in the colours of their kinds", GREEN)
    for name, colour in CLASSES.values():
        picture.box(x, 380, 11, 11, colour, rx=1)
        picture.text(x + 17, 390, name, INK, font_size=12)
        x += 28 + 6.6 * len(name)
    picture.write("trie.svg")


def boundaries(rows, value):
    """The boundaries of the set of a value."""
    ends = []
    for first, last, _ in sorted(it for it in rows if it[2] == value):
        if ends and ends[-1] == first:
            ends.pop()
            first = None
        ends += [last + 1] if first is None else [first, last + 1]
    return ends


def draw_inversion_list(rows, value):
    """The start of a set on a line, with its boundaries."""
    ends, start, end = boundaries(rows, value), 0x30, 0x108
    heading = "A set of code points: the ascending list of its boundaries"
    said = f"Lu, the uppercase letters: {len(ends):,} boundaries, {len(ends) // 2} ranges"
    picture = Picture(1000, 300, "The boundaries of a set of code points", heading, said)
    scale = 940 / (end - start)
    x_of = lambda c: 30 + scale * (c - start)
    shown = [it for it in ends if start <= it < end]
    picture.box(30, 120, 940, 30, PALE)
    for first, last in zip(ends[::2], ends[1::2]):
        if first < end:
            picture.box(x_of(first), 120, scale * (min(last, end) - first), 30, BLUE)
    crowded = -100
    for k, it in enumerate(shown):
        picture.line(x_of(it), 112, x_of(it), 158, INK, stroke_width=1)
        if x_of(it) - crowded >= 24:
            picture.text(x_of(it), 106, f"{it:X}", INK, text_anchor="middle", font_size=12)
            crowded = x_of(it)
    picture.text(970, 174, "and so on", GREY, text_anchor="end", font_size=12)
    for c, y in ((0x61, 200), (0x51, 250)):
        count = sum(it <= c for it in ends)
        kind = "odd: in the set" if count % 2 else "even: not in the set"
        picture.line(x_of(c), 154, x_of(c), y - 14, GREEN if count % 2 else GREY, stroke_width=1.5)
        said = f"U+{c:04X} {chr(c)}: {count} {'boundary is' if count == 1 else 'boundaries are'} at or below it, {kind}"
        picture.text(x_of(c) - 4, y, said, GREEN if count % 2 else INK)
    picture.text(30, 282, f"stored: {', '.join(f'{it:X}' for it in ends[:10])}, ..", GREY, font_size=12)
    picture.write("inversion_list.svg")


def draw_frozen(words, rows, value):
    """A bit for each code point: blocks of 1,024, of which the empty ones share their words."""
    last = words[0] - 1
    offset = lambda block: words[min(block, last)]
    blocks = (0x00, 0x01, 0x13, last, 0x43F)
    count = len({offset(it) for it in range(1088)})
    assert len(words) == offset(0) + 16 * (count + 1)
    said = f"Lu, the uppercase letters: {len(words):,} words. {offset(0)} hold the offsets. Then come {count} different blocks, and one of ones, which each frozen set has"
    picture = Picture(1000, 426, "A frozen set", "A frozen set: one bit for each code point, in blocks of 1,024", said)
    said = f"the offset of each block of 1,024 code points: the index of its first word. The last one, of U+{1024 * last:04X},"
    picture.text(30, 92, f"{said} is that of all later blocks", BLUE)
    found = list(dict.fromkeys(offset(it) for it in blocks))
    x_of = {it: 30 + 940 * (2 * k + 1) / (2 * len(found)) for k, it in enumerate(found)}
    for k, block in enumerate(blocks):
        x = 30 + 940 * (2 * k + 1) / (2 * len(blocks))
        picture.text(x, 116, f"U+{1024 * block:04X}", GREY, text_anchor="middle", font_size=12)
        picture.box(x - 34, 124, 68, 26, BLUE, rx=3)
        picture.text(x, 142, offset(block), "#ffffff", text_anchor="middle")
        picture.line(x, 150, x_of[offset(block)], 186, GREY, stroke_width=1)
    inside = {c for first, last in zip(*[iter(boundaries(rows, value))] * 2) for c in range(first, last)}
    for it in found:
        picture.text(x_of[it], 200, f"from word {it}", INK, text_anchor="middle", font_size=12)
        block = next(b for b in blocks if offset(b) == it)
        for k in range(16):
            bits = [words[it + k] >> bit & 1 for bit in range(64)]
            assert bits == [1024 * block + 64 * k + bit in inside for bit in range(64)]
            x, y = x_of[it] - 112, 210 + 10 * k
            picture.box(x, y, 224, 9, PALE, rx=0)
            for bit in range(64):
                if bits[bit]:
                    picture.box(x + 3.5 * bit, y, 3, 9, GREEN, rx=0)
    picture.text(30, 390, "each line is a word with the bits of 64 code points; green is 1", GREEN)
    picture.text(30, 412, "U+0051 Q: the block of U+0000, its second word, bit 17 counted from 0")
    picture.write("frozen.svg")


def nodes_of(units):
    """What each unit of a small unit trie is, and its colour. Only the short forms of the format are read."""
    rest = iter(units)
    for lead in rest:
        if lead >= 0x8000:
            yield f"value {lead - 0x8000}", GREEN
            continue
        before = f"value {(lead >> 6) - 1}, " if lead >> 6 else ""
        low = lead & 0x3F
        if low >= 0x30:
            yield f"{before}next {low - 0x2F}", BLUE
            yield from ((chr(next(rest)), PALE) for _ in range(low - 0x2F))
            continue
        yield f"{before}one of {low + 1}", BLUE
        for k in range(low + 1):
            yield chr(next(rest)), PALE
            if k < low:
                yield f"value {next(rest) - 0x8000}", GREEN


def draw_unit_trie(units):
    """The units of three words, and how a text is matched."""
    said = f"{', '.join(f'{key} {value}' for key, value in WORDS.items())}: {len(units)} units, {2 * len(units)} bytes"
    picture = Picture(1000, 330, "A unit trie", "A unit trie: keys of 16-bit units, each with a number", said)
    width = 940 / len(units)
    for k, (unit, (what, colour)) in enumerate(zip(units, nodes_of(units), strict=True)):
        x = 30 + width * (k + 0.5)
        picture.box(x - width / 2 + 2, 104, width - 4, 30, colour, rx=3)
        picture.text(x, 124, f"{unit:04X}", INK if colour == PALE else "#ffffff", text_anchor="middle", font_size=14)
        for line, word in enumerate(what.split(", ")):
            picture.text(x, 152 + 16 * line, word, INK, text_anchor="middle", font_size=12)
    picture.text(30, 212, "The longest key that is a prefix of “categories”:", INK, font_size=15)
    steps = (
        ("c a", "the next 2 units match"),
        ("t", "one of 2: r and t. A key ends here: cat, 3"),
        ("e g o r", "the next 5 units are egory: 4 of them match"),
        ("i", "is not y: no key continues, so the longest is cat"),
    )
    for k, (read, what) in enumerate(steps):
        y = 240 + 22 * k
        picture.text(110, y, read, BLUE, text_anchor="end", font_weight="bold")
        picture.text(126, y, what, INK)
    picture.write("unit_trie.svg")
