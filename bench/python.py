#!/usr/bin/env python3
"""Times the Python module beside what Python itself has, and other modules: bench/python.py

The module has to be installed for this Python (pip install ./python). The others are measured if they
are there too: regex, PyICU, datrie, marisa and numpy (Debian: python3-regex, python3-icu, ..). Each row
is the least of many rounds, in nanoseconds per call or per character, without the time of the loop
around it. The rows of a group run in turns, and the ratio is that to the peer named first, in the same
run.
"""
import array
import importlib
import itertools
import mmap
import random
import re
import sys
import tempfile
import time
import unicodedata

try:
    from bekstaudi import CodePointSet, Trie, UnitTrie, categories
except ImportError as fault:
    sys.exit(f"bench/python.py: {fault}: install the module first: pip install ./python")



def module(name):
    """A module, or None."""
    try:
        return importlib.import_module(name)
    except ImportError:
        return None


regex, icu, datrie, marisa, numpy = map(module, ("regex", "icu", "datrie", "marisa", "numpy"))
ROUNDS = 25
TEXTS = {
    "Latin": "The quick brown fox jumps over the lazy dog; d\u00e9j\u00e0 vu, na\u00efve fa\u00e7ade. " * 400,
    "mixed": "A\u00df7 \u4e16\u754c \u0434\u043e\u043c \U0001f600 \u05e9\u05dc \u0645\u0631 " * 1200,
}


def looped(body, data):
    """A function that runs a line of Python for each `it` of the data."""
    scope = {"data": data, **globals()}
    exec(f"def run():\n    for it in data:\n        {body}\n", scope)
    return scope["run"]


def time_of(run):
    """The seconds of one run."""
    start = time.perf_counter()
    run()
    return time.perf_counter() - start


def table(title, rows, count):
    """Prints a group of rows: a name, what to run, and what the loop alone is."""
    least = [float("inf")] * len(rows)
    loops = [float("inf")] * len(rows)
    for _ in range(ROUNDS):
        for number, (_, run, loop) in enumerate(rows):
            least[number] = min(least[number], time_of(run))
            loops[number] = min(loops[number], time_of(loop) if loop else 0)
    spent = [(all_of - loop) / count * 1e9 for all_of, loop in zip(least, loops)]
    print(f"\n{title}")
    for (name, _, _), ns in zip(rows, spent):
        print(f"  {name:44} {ns:10.1f} ns {ns / spent[0]:8.2f}")


def look_ups(trie):
    """One value, and those of a text."""
    globals().update(char_type=icu and icu.Char.charType)
    for name, text in TEXTS.items():
        known = {it: trie[it] for it in text}
        globals().update(trie=trie, known=known, category=unicodedata.category)
        alone = looped("pass", text)
        points = list(map(ord, text))
        table(f"One value, {name} text", [
            ("unicodedata.category(c)", looped("category(it)", text), alone),
            ("trie[c]", looped("trie[it]", text), alone),
            ("trie[c], c an int", looped("trie[it]", points), looped("pass", points)),
            ("dict[c]", looped("known[it]", text), alone),
            *([("PyICU: Char.charType(c)", looped("char_type(it)", text), alone)] if icu else []),
        ], len(text))
        room, packed = array.array("B", bytes(len(text))), array.array("I", points)
        table(f"The values of a text of {len(text)} characters, {name}; per character", [
            ("[category(c) for c in text]", lambda: list(map(unicodedata.category, text)), None),
            ("trie.values(text)", lambda: trie.values(text), None),
            ("trie.values(text, out=buffer)", lambda: trie.values(text, out=room), None),
            ("trie.values(array of uint32)", lambda: trie.values(packed), None),
            ("list(trie.values(text))", lambda: list(trie.values(text)), None),
        ], len(text))


def arrays(trie):
    """A million points of an array."""
    if not numpy:
        return
    for name, most in (("below U+3000", 0x3000), ("of all planes", 0x110000)):
        points = numpy.random.default_rng(5).integers(0, most, 10**6, numpy.uint32)
        room, values = numpy.zeros(len(points), numpy.uint8), numpy.asarray(trie[:])
        table(f"The values of a million points in an array, {name}; per point", [
            ("numpy: table[points]", lambda: values[points], None),
            ("trie.values(points)", lambda: trie.values(points), None),
            ("trie.values(points, out=buffer)", lambda: trie.values(points, out=room), None),
        ], len(points))


def words_of_letters(letters):
    """The words of letters of a text."""
    for name, text in TEXTS.items():
        by_re, by_regex = re.compile(r"[^\W\d_]+").findall, regex and regex.compile(r"\p{L}+").findall

        def by_loop(span=letters.span):
            found, start = [], 0
            while start < len(text):
                start += span(text, False, start)
                size = span(text, True, start)
                found += [text[start:start + size]] if size else []
                start += size
            return found

        def by_spans():
            return [text[start:end] for start, end, held in letters.spans(text) if held]

        wanted = by_spans()
        assert by_loop() == wanted == (by_regex or by_re)(text)
        table(f"The words of letters of a text, {name}; per character", [
            *([(r"regex: findall of \p{L}+", lambda: by_regex(text), None)] if regex else []),
            ("re: findall of a class", lambda: by_re(text), None),
            ("a loop of set.span", by_loop, None),
            ("a loop over set.spans", by_spans, None),
        ], len(text))


def making_sets(letters):
    """Sets made of code points and of ranges."""
    points = random.Random(5).sample(sorted(letters), 2000)
    text, packed, ranges = "".join(map(chr, points)), array.array("I", points), letters.ranges()
    made, frozen = CodePointSet.from_chars(points), frozenset(points)

    def by_add():
        found = icu.UnicodeSet()
        for first, last in ranges:
            found.add(chr(first), chr(last))

    table(f"A set made of {len(points)} random code points; per point", [
        ("frozenset(list)", lambda: frozenset(points), None),
        *([("PyICU: addAll(text)", lambda: icu.UnicodeSet().addAll(text), None)] if icu else []),
        ("CodePointSet.from_chars(list)", lambda: CodePointSet.from_chars(points), None),
        ("CodePointSet.from_chars(text)", lambda: CodePointSet.from_chars(text), None),
        ("CodePointSet.from_chars(array of uint32)", lambda: CodePointSet.from_chars(packed), None),
        ("set | frozenset", lambda: made | frozen, None),
        ("set == frozenset", lambda: made == frozen, None),
    ], len(points))
    table(f"A set made of {len(ranges)} ranges; per range", [
        *([("PyICU: add for each", by_add, None)] if icu else []),
        ("CodePointSet.from_ranges(pairs)", lambda: CodePointSet.from_ranges(ranges), None),
    ], len(ranges))


def sets(trie):
    """Membership, spans and operations."""
    letters = CodePointSet().union(*(trie.set_of(it) for it, name in enumerate(categories.NAMES) if name[0] == "L"))
    few, text = CodePointSet([0x41, 0x5B, 0x61, 0x7B]), TEXTS["Latin"]
    frozen = frozenset(map(chr, letters))
    starts = [i for i in range(1, len(text)) if text[i - 1] == " " and text[i].isascii()]
    globals().update(letters=letters, few=few, frozen=frozen, text=text, frozen_letters=letters.freeze())
    alone, begins = looped("pass", text), looped("pass", starts)
    table(f"Membership ({len(letters.ends)} boundaries)", [
        ("c in frozenset", looped("it in frozen", text), alone),
        ("c in set", looped("it in letters", text), alone),
        ("c in frozen set", looped("it in frozen_letters", text), alone),
        ("c in set of 4 boundaries", looped("it in few", text), alone),
    ], len(text))
    globals().update(match=re.compile("[A-Za-z]+").match)
    table("The letters of a word, from a place on", [
        ("re.match(text, i).end()", looped("match(text, it).end()", starts), begins),
        ("set.span(text, start=i)", looped("letters.span(text, True, it)", starts), begins),
        ("set.span(text, start=i), 4 boundaries", looped("few.span(text, True, it)", starts), begins),
    ], len(starts))
    words_of_letters(letters)
    other = CodePointSet(it + 3 for it in letters.ends[:-2])
    globals().update(other=other, mine=set(letters), theirs=set(other))
    making_sets(letters)
    table("Two sets joined, and one frozen; per call", [
        ("set of Python | set of Python", looped("mine | theirs", range(2)), None),
        ("set | set", looped("letters | other", range(2)), None),
        ("CodePointSet(ends).freeze()", lambda ends=letters.ends: [CodePointSet(ends).freeze() for _ in range(2)], None),
    ], 2)


def peers_of_words(keys, texts):
    """The rows of other modules for look-ups and longest words: two lists."""
    found, longest = [], []
    if datrie:
        other = datrie.Trie("".join(sorted(set("".join(texts)))))
        for key in keys:
            other[key] = words[key]
        globals().update(datrie_trie=other)
        found += [("datrie: trie[word]", looped("datrie_trie[it]", keys), looped("pass", keys))]
        longest += [("datrie: longest_prefix_item", looped("datrie_trie.longest_prefix_item(it)", texts), looped("pass", texts))]
    if marisa:
        keyset, other = marisa.Keyset(), marisa.Trie()
        for key in keys:
            keyset.push_back(key)
        other.build(keyset)
        globals().update(marisa_trie=other, agent=marisa.Agent())
        body = "agent.set_query(it); marisa_trie.lookup(agent)"
        found += [("marisa: lookup, no value", looped(body, keys), looped("pass", keys))]
        body = "agent.set_query(it)\n        while marisa_trie.common_prefix_search(agent): pass"
        longest += [("marisa: common_prefix_search", looped(body, texts), looped("pass", texts))]
    return found, longest


def units():
    """A dictionary of words."""
    words = {f"{it * 2654435761 % (1 << 32):x}": it for it in range(20000)}
    keys, trie = list(words), UnitTrie.build(words)
    random.Random(5).shuffle(keys)
    texts = [it + " and what follows it" for it in keys]
    globals().update(words=words, unit_trie=trie, long_text="".join(texts))
    starts = [0, *itertools.accumulate(map(len, texts[:-1]))]
    found, longest = peers_of_words(keys, texts)
    table("A word of 20,000 looked up", [
        *found,
        ("trie[word]", looped("unit_trie[it]", keys), looped("pass", keys)),
        ("dict[word]", looped("words[it]", keys), looped("pass", keys)),
    ], len(keys))
    table("The longest word at a place", [
        *longest,
        ("trie.longest(text)", looped("unit_trie.longest(it)", texts), looped("pass", texts)),
    ], len(keys))
    table(f"The same in one text of {len(long_text)} characters", [
        ("trie.longest(text, start)", looped("unit_trie.longest(long_text, it)", starts), looped("pass", starts)),
    ], len(starts))
    prefixes = [f"{it:x}" for it in range(16, 256)]
    globals().update(prefixes=prefixes)
    below = sum(len(trie.items(it)) for it in prefixes)
    table("The words that start with two characters; per word", [
        *([("datrie: items(prefix)", looped("datrie_trie.items(it)", prefixes), None)] if datrie else []),
        ("trie.items(prefix)", looped("unit_trie.items(it)", prefixes), None),
    ], below)
    table("Asked of the whole dictionary; per call", [
        ("len(dict)", looped("len(words)", range(100)), None),
        ("len(trie)", looped("len(unit_trie)", range(100)), None),
        ("next(iter(trie))", looped("next(iter(unit_trie))", range(100)), None),
    ], 100)
    table("All words; per word", [
        ("sorted(dict.items())", lambda: sorted(words.items()), None),
        *([("datrie: items()", lambda: datrie_trie.items(), None)] if datrie else []),
        ("trie.items()", trie.items, None),
        ("list(trie)", lambda: list(trie), None),
        ("trie == dict", lambda: trie == words, None),
        ("UnitTrie.build(dict)", lambda: UnitTrie.build(words), None),
    ], len(keys))


def opening(trie):
    """Opened and built."""
    data, rows = trie.data, list(trie.ranges())
    with tempfile.NamedTemporaryFile() as file:
        file.write(data)
        file.truncate(2 << 30)
        mapped = mmap.mmap(file.fileno(), 0, access=mmap.ACCESS_READ)
        table("Opened", [
            ("Trie(bytes)", lambda: [Trie(data) for _ in range(100)], None),
            ("Trie(a mapped file of 2 GB)", lambda: [Trie(mapped) for _ in range(100)], None),
        ], 100)
        mapped.close()
    table(f"Built of {len(rows)} rows; per row", [("Trie.build(rows)", lambda: Trie.build(rows), None)], len(rows))
    table("Gone through; per range", [("list(trie.ranges())", lambda: list(trie.ranges()), None)], len(rows))


def main():
    print(f"Python {sys.version.split()[0]}, Unicode {unicodedata.unidata_version}; least of {ROUNDS} rounds")
    trie = Trie(categories.TRIE.data)
    look_ups(trie)
    arrays(trie)
    sets(trie)
    units()
    opening(trie)


main()
