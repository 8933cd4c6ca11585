"""Sets of code points and strings, beside plain Python sets."""
import doctest
import itertools
import pickle
import random
import unittest

from bekstaudi import CodePointSet, UnitTrie, text_sets
from bekstaudi.text_sets import TextSet

HAND, DARK, JOINER = "\N{WAVING HAND SIGN}", "\N{EMOJI MODIFIER FITZPATRICK TYPE-6}", "\N{ZERO WIDTH JOINER}"
PARTS = ("a", "b", "\N{LATIN SMALL LETTER E WITH ACUTE}", JOINER, HAND, DARK)


class TextSets(unittest.TestCase):
    def test_the_examples(self):
        self.assertEqual(doctest.testmod(text_sets)[0], 0)

    def test_members(self):
        members = {"a", "ab", HAND, HAND + DARK, ""}
        found = TextSet(members)
        self.assertEqual(found, members)
        self.assertEqual((len(found), set(found)), (5, members))
        self.assertEqual(found.code_points, CodePointSet.from_chars("a" + HAND))
        self.assertEqual(found.strings, UnitTrie.build({"ab": 0, HAND + DARK: 0, "": 0}))
        for text in ("b", DARK, "aa", "abc", None, 97, ("a",)):
            self.assertNotIn(text, found)
        self.assertEqual(TextSet(["ab"], CodePointSet.from_ranges([("a", "z")])).longest("abc"), "ab")
        self.assertEqual(TextSet(["ab"], "xyz"), {"ab", "x", "y", "z"})

    def test_the_longest_member(self):
        found = TextSet(["a", "ab", HAND, HAND + DARK, ""])
        self.assertEqual(found.longest("abc"), "ab")
        self.assertEqual(found.longest("acb"), "a")
        self.assertEqual(found.longest("x" + HAND + DARK + DARK, 1), HAND + DARK)
        self.assertEqual(found.longest("xab", -2), "ab")
        self.assertEqual((found.longest("b"), found.longest(""), found.longest("a", 5)), ("", "", ""))

    def test_against_python(self):
        random.seed(7)
        texts = ["".join(it) for size in range(4) for it in itertools.product(PARTS, repeat=size)]
        for _ in range(60):
            members = set(random.sample(texts, random.randrange(12)))
            found = TextSet(members)
            self.assertEqual(hash(found), hash(frozenset(members)))
            for text in random.sample(texts, 40):
                self.assertEqual(text in found, text in members)
                wanted = max((it for it in members if text.startswith(it)), key=len, default="")
                self.assertEqual(found.longest(text), wanted)

    def test_spans(self):
        found = TextSet(["a", "ab", HAND, HAND + DARK, ""])
        self.assertEqual((found.span("abaac"), found.span("bba", False), found.span("ba")), (4, 2, 0))
        self.assertEqual((found.span("xx" + HAND + DARK + "ab", start=2), found.span("x" + DARK + "a", False)), (6, 2))
        self.assertEqual((found.span(""), found.span("ab", start=9), found.span("xab", start=-2)), (0, 2, 3))

    def test_sets(self):
        first, second = TextSet(["a", "ab"]), TextSet(["ab", HAND])
        self.assertEqual(first & second, {"ab"})
        self.assertEqual(first | second, {"a", "ab", HAND})
        self.assertEqual(first - second, {"a"})
        self.assertTrue(first & second < first)
        self.assertEqual(pickle.loads(pickle.dumps(first)), first)
        self.assertEqual(TextSet(), set())
        self.assertFalse(TextSet())

    def test_errors(self):
        self.assertRaisesRegex(TypeError, "members: expected str, found int", TextSet, [97])
        self.assertRaises(TypeError, TextSet, 97)
        self.assertRaises(TypeError, TextSet(["a"]).longest, 97)


if __name__ == "__main__":
    unittest.main()
