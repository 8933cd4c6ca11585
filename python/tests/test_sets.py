"""Sets of code points, frozen or not."""
import array
import collections.abc
import itertools
import operator
import unittest

from bekstaudi import CodePointSet, FrozenCodePointSet, InvalidSet
from samples import copies

# Boundaries of few and of many ranges.
ENDS = ([0x41, 0x5B, 0x61, 0x7B], [it for first in range(0, 0x110000, 4999) for it in (first, first + 700 + first % 1999)])


def ends_of(points):
    """The boundaries of a set of code points, one by one."""
    return sorted(set(points) ^ {it + 1 for it in points})


def both_kinds(ends):
    """The set of some boundaries, not frozen and frozen."""
    return CodePointSet(ends), FrozenCodePointSet(ends)


class Letters(CodePointSet):
    """A subclass with attributes."""

    __slots__ = ("slot", "__dict__")


class FrozenLetters(FrozenCodePointSet):
    """A subclass of the other class."""

    __slots__ = ("slot", "__dict__")


class Sets(unittest.TestCase):
    letters = CodePointSet([0x41, 0x5B, 0x61, 0x7B])

    def test_as_sets_of_python(self):
        other = CodePointSet([0, 0x42, 0x70, 0x80, 0x10FFFF, 0x110000])
        mine, theirs = set(self.letters), set(other)
        self.assertEqual(set(self.letters | other), mine | theirs)
        self.assertEqual(set(self.letters & other), mine & theirs)
        self.assertEqual(set(self.letters - other), mine - theirs)
        self.assertEqual(set(self.letters ^ other), mine ^ theirs)
        self.assertEqual((len(self.letters), len(other)), (len(mine), len(theirs)))
        for c in [*range(0x90), 0x10FFFE, 0x10FFFF, 0x110000]:
            self.assertEqual(c in other, c in theirs)

    def test_empty_and_all(self):
        everything = CodePointSet([0, 0x110000])
        self.assertEqual(len(CodePointSet()), 0)
        self.assertEqual(len(everything), 0x110000)
        self.assertEqual(everything - everything, CodePointSet())
        self.assertEqual(CodePointSet() | CodePointSet(), CodePointSet())
        self.assertNotIn("a", CodePointSet())

    def test_orders_and_complement(self):
        everything = CodePointSet([0, 0x110000])
        tables = [[], [0, 1], [0x10FFFF, 0x110000], [0x41, 0x5B], [0x41, 0x5B, 0x61, 0x7B], [5, 0x45]]
        for left in map(CodePointSet, tables):
            mine = set(left)
            self.assertEqual((left | ~left, left & ~left, ~~left), (everything, CodePointSet(), left))
            for right in map(CodePointSet, tables):
                theirs = set(right)
                self.assertEqual((left <= right, left < right), (mine <= theirs, mine < theirs))
                self.assertEqual((left >= right, left > right), (mine >= theirs, mine > theirs))
                self.assertEqual((left == right, left != right), (mine == theirs, mine != theirs))
                self.assertEqual(left.isdisjoint(right), mine.isdisjoint(theirs))
        for wrong in ([0x41], 5, None, "A", {0x41: 1}):
            for compare in (operator.le, operator.lt, operator.ge, operator.gt):
                self.assertRaises(TypeError, compare, self.letters, wrong)
            self.assertNotEqual(self.letters, wrong)
        for wrong in (5, None):
            self.assertRaises(TypeError, self.letters.isdisjoint, wrong)

    def test_other_sets(self):
        tables = [set(), {0x41}, {0x41, 0x42, 7}, set(self.letters), set(self.letters) | {0x10FFFF}, {0x5B}]
        for theirs, made in itertools.product(tables, both_kinds(ENDS[0])):
            for other in (theirs, frozenset(theirs), dict.fromkeys(theirs).keys(), CodePointSet.from_chars(theirs)):
                mine = set(made)
                for compare in (operator.le, operator.lt, operator.ge, operator.gt, operator.eq, operator.ne):
                    self.assertEqual(compare(made, other), compare(mine, theirs))
                    self.assertEqual(compare(other, made), compare(theirs, mine))
                for operation in (operator.or_, operator.and_, operator.sub, operator.xor):
                    self.assertEqual(set(operation(made, other)), operation(mine, theirs))
                    self.assertEqual(set(operation(other, made)), operation(theirs, mine))
                    self.assertIs(type(operation(made, other)), type(made))
                for name in ("isdisjoint", "issubset", "issuperset"):
                    for given in (other, list(theirs), map(chr, theirs)):
                        self.assertEqual(getattr(made, name)(given), getattr(mine, name)(theirs))
        for operation in (operator.or_, operator.and_, operator.sub, operator.xor):
            for wrong in ({0x41, None}, {1.5}, {"ab"}):
                self.assertRaises(TypeError, operation, self.letters, wrong)
            self.assertRaises(InvalidSet, operation, self.letters, {-1})

    def test_methods_of_python_sets(self):
        for made in both_kinds(ENDS[0]):
            mine, others = set(made), ({1, 0x41}, [0x42, 0x41], "AZ", CodePointSet([0x41, 0x44]))
            shown = [set(map(ord, it)) if isinstance(it, str) else set(it) for it in others]
            for name in ("union", "intersection", "difference"):
                for count in range(5):
                    found = getattr(made, name)(*others[:count])
                    self.assertEqual((found, type(found)), (getattr(mine, name)(*shown[:count]), type(made)))
            for other, theirs in zip(others, shown):
                self.assertEqual(made.symmetric_difference(other), mine ^ theirs)
            for name in ("union", "intersection", "difference", "symmetric_difference", "issubset", "issuperset"):
                with self.assertRaises(TypeError):
                    getattr(made, name)(5)

    def test_equal_to_python_sets(self):
        for ends in ([], [0, 1], [0, 0x110000], [0x10FFFF, 0x110000], *ENDS):
            for made in both_kinds(ends):
                self.assertIsInstance(made, collections.abc.Set)
                self.assertEqual((made, hash(made)), (frozenset(made), hash(frozenset(made))))
                self.assertEqual(len({made, frozenset(made)}), 1)

    def test_equal_sets_hash_alike(self):
        same = CodePointSet([0x41, 0x5B]) | CodePointSet([0x61, 0x7B])
        self.assertEqual(same, self.letters)
        self.assertEqual(hash(same), hash(self.letters))
        self.assertNotEqual(same, {0x41})
        self.assertEqual(repr(same), "CodePointSet([0x41, 0x5b, 0x61, 0x7b])")

    def test_repr_of_many_ranges(self):
        for count, shown in ((20, 20), (21, 20), (4000, 20)):
            made = CodePointSet.from_chars(range(0, 2 * count, 2))
            ends = ", ".join(map(hex, range(2 * shown))) + (", ..." if count > shown else "")
            self.assertEqual((repr(made), repr(made.freeze())), (f"CodePointSet([{ends}])", f"FrozenCodePointSet([{ends}])"))

    def test_copies(self):
        for made in (self.letters, CodePointSet(), CodePointSet([0, 0x110000])):
            for it in copies(made):
                self.assertEqual((it, hash(it), len(it)), (made, hash(made), len(made)))

    def test_copies_of_subclasses(self):
        for kind in (Letters, FrozenLetters):
            made = kind([1, 2])
            made.name, made.more, made.slot = "A", [1, 2], {3}
            for it in copies(made):
                self.assertEqual((it, it.ends, type(it)), (made, (1, 2), kind))
                self.assertEqual((it.name, it.more, it.slot), ("A", [1, 2], {3}))
            self.assertEqual([vars(it) for it in copies(kind([1, 2]))], [{}] * len(list(copies(made))))

    def test_ends_stay(self):
        self.assertEqual(self.letters.ends, (0x41, 0x5B, 0x61, 0x7B))
        with self.assertRaises(AttributeError):
            self.letters.ends = ()

    def test_what_is_no_code_point(self):
        for far in (-1, 0x110000, 1 << 32, -(1 << 70)):
            self.assertNotIn(far, CodePointSet([0, 0x110000]))
        for wrong in (97.0, "ab", "", b"a", None):
            with self.assertRaises(TypeError):
                wrong in self.letters

    def test_of_ranges(self):
        self.assertEqual(CodePointSet.from_ranges([("a", "z"), (0x41, 0x5A)]), self.letters)
        joined = CodePointSet.from_ranges([(7, 9), (0, 5), (2, 3), (6, 6), (9, 12), (20, 20)])
        self.assertEqual(joined.ends, (0, 13, 20, 21))
        self.assertEqual(CodePointSet.from_ranges([]), CodePointSet())
        self.assertEqual(len(CodePointSet.from_ranges([(0, 0x10FFFF), (5, 6)])), 0x110000)
        for wrong in ((5, 4), (-1, 4), (0, 0x110000), (-9, -8)):
            self.assertRaises(InvalidSet, CodePointSet.from_ranges, [wrong, (0, 0x10FFFF)])

    def test_of_characters(self):
        self.assertEqual(CodePointSet.from_chars("cab\u4e16aZ\ud800").ranges(), [
            (0x5A, 0x5A), (0x61, 0x63), (0x4E16, 0x4E16), (0xD800, 0xD800)
        ])
        self.assertEqual(CodePointSet.from_chars(""), CodePointSet())
        self.assertEqual(CodePointSet.from_chars(map(chr, self.letters)), self.letters)

    def test_of_points_in_all_forms(self):
        for points in ([], [0], [0x10FFFF, 0], [5, 3, 4, 3, 9], [*range(0x41, 0x5B)], [0xD7FF, 0xD800, 0xDFFF, 0xE000, 0xD800]):
            forms = [points, tuple(points), set(points), frozenset(points), dict.fromkeys(points), dict.fromkeys(points).keys()]
            forms += [iter(points), map(chr, points), "".join(map(chr, points)), list(map(chr, points)), (it for it in points)]
            forms += [array.array(it, points) for it in "BHIQ" if max(points, default=0) >> 8 * array.array(it).itemsize == 0]
            forms += [array.array(it, points) for it in "iq"]
            forms += [memoryview(array.array("I", [it for point in points for it in (point, 7)]))[::2], CodePointSet(ends_of(points))]
            for given in forms:
                made = CodePointSet.from_chars(given)
                self.assertEqual((made.ends, type(made)), (tuple(ends_of(points)), CodePointSet))
        for given in (range(0), range(5, 900), range(7, 60000, 11), range(0x10FFFF, -1, -3), range(9, 2), range(4, 5, 100)):
            self.assertEqual(CodePointSet.from_chars(given), CodePointSet(ends_of(list(given))))
        self.assertEqual(CodePointSet.from_chars(b"ab"), CodePointSet.from_chars(bytearray(b"ab")))

    def test_of_many_points(self):
        # The set with the most boundaries, and more points and ranges than it has.
        every_other, wanted = list(range(0, 0x110000, 2)), tuple(range(0x110000))
        for given in (range(0, 0x110000, 2), every_other[::-1], every_other + every_other[:9000], array.array("I", every_other)):
            self.assertEqual(CodePointSet.from_chars(given).ends, wanted)
        self.assertEqual(CodePointSet.from_ranges(zip(every_other * 2, every_other * 2)).ends, wanted)
        text = "a\u4e16\U0001f600" * 9000
        for given in (text, text.encode("utf-32-le")[:0] + b"ab" * 9000):
            self.assertEqual(len(CodePointSet.from_chars(given)), len(set(given)))

    def test_what_is_outside(self):
        outside = [[-1], [0x110000], [1 << 32], {-(1 << 70)}, array.array("b", [-1]), array.array("q", [-(1 << 63)]), range(-2, 5)]
        outside += [array.array("I", [0x110000]), array.array("I", [(1 << 32) - 1]), array.array("Q", [1 << 40]), range(0x110000, 7, -1)]
        for given in outside:
            number = next(it for it in given if not 0 <= it <= 0x10FFFF)
            for make in (CodePointSet.from_chars, FrozenCodePointSet.from_chars, self.letters.union, self.letters.isdisjoint):
                with self.assertRaisesRegex(InvalidSet, f"^code point: expected a number from 0 to 0x10FFFF, found {number}$"):
                    make(given)
        for wrong in (5, None, [None], [1.5], ["ab"], [b"a"], array.array("d", [1.0]), 5.0, object()):
            for make in (CodePointSet.from_chars, self.letters.union, self.letters.isdisjoint, self.letters.issuperset):
                self.assertRaises(TypeError, make, wrong)

        def broken():
            yield 5
            raise KeyError("own")

        for make in (CodePointSet.from_chars, CodePointSet.from_ranges, self.letters.union):
            with self.assertRaisesRegex(KeyError, "own"):
                make(broken() if make != CodePointSet.from_ranges else ((it, it) for it in broken()))

    def test_of_pairs_in_all_forms(self):
        pairs = [(0x61, 0x7A), (0x41, 0x5A)]
        forms = [pairs, pairs[::-1], set(pairs), dict(pairs).items(), map(list, pairs), ["az", "AZ"], [iter(it) for it in pairs]]
        for given in (*forms, [(0x41, "M"), *pairs, ("M", "Z")], (it for it in pairs)):
            for kind in (CodePointSet, FrozenCodePointSet):
                made = kind.from_ranges(given if kind is CodePointSet else pairs)
                self.assertEqual((made.ends, type(made)), ((0x41, 0x5B, 0x61, 0x7B), kind))
        for wrong, error, said in (
            ([(1, 2), (5, 4)], InvalidSet, r"^pairs\[1\]: the range 0x5..=0x4 ends before it starts$"),
            ([(1, 0x110000)], InvalidSet, "^code point: expected a number from 0 to 0x10FFFF, found 1114112$"),
            ([(1, 2), (1, 2, 3)], ValueError, r"^pairs\[1\]: expected a first and a last code point, found \(1, 2, 3\)$"),
            ([()], ValueError, r"^pairs\[0\]: expected a first and a last code point, found \(\)$"),
            ("ab", ValueError, r"^pairs\[0\]: expected a first and a last code point, found 'a'$"),
            ([(1, 2), 5], TypeError, r"^pairs\[1\]: expected a first and a last code point, found int$"),
            ([(1, "ab")], TypeError, "^code point: expected one character, found a str of length 2$"),
        ):
            self.assertRaisesRegex(error, said, CodePointSet.from_ranges, wrong)

    def test_elements_that_are_no_code_points(self):
        class Even(collections.abc.Set):
            def __contains__(self, it):
                return it % 2 == 0

            def __iter__(self):
                return iter(range(0, 100, 2))

            def __len__(self):
                return 50

        for made in both_kinds([0x60, 0x61, 0x62, 0x63]):
            self.assertTrue(made <= {0x60, 0x62, None, "a"} and made < {0x60, 0x62, -1} and made >= {"`"})
            self.assertTrue(made <= Even() and made < Even() and not made >= Even() and not made == Even() and Even() > made)
            self.assertFalse(made == {None, "b"} or made >= {-1} or made > {1 << 70} or made <= {None, "a"})
            self.assertEqual(made | Even(), set(made) | set(range(0, 100, 2)))
            for compare in (operator.gt, operator.ge):
                self.assertRaises(TypeError, compare, made, {None})
        with self.assertRaises(ZeroDivisionError):
            CodePointSet([1, 2]) <= type("Broken", (Even,), {"__contains__": lambda self, it: 1 // 0})()

    def test_span_from_a_start(self):
        greek = CodePointSet([0x370, 0x400])
        for count in (0, 1, 63, 64, 65, 1087, 1088, 1089, 3136, 9000):
            text = "x" + count * "\u03b1" + "\U0001f600" + count * "."
            self.assertEqual(greek.span(text, start=1), count)
            self.assertEqual(greek.span(text, False, start=-count - 1), count + 1)
            self.assertEqual(greek.span(text[:count + 1], start=1), count)
        text = "\u03b1\u03b2 \u03b3"
        for start in range(-6, 7):
            self.assertEqual(greek.span(text, start=start), greek.span(text[start:]))
        self.assertRaises(TypeError, greek.span, text, start=1.5)
        for wrong in (b"abc", 5, None):
            self.assertRaises(TypeError, greek.span, wrong)

    def test_span_of_surrogates(self):
        self.assertEqual(CodePointSet([0x370, 0x400]).span("\u03b1\ud800"), 1)
        self.assertEqual(CodePointSet([0xD800, 0xE000]).span("\udfff\ud800x"), 2)
        self.assertEqual(CodePointSet([0xD800, 0xE000]).span("\U0001f600"), 0)

    def test_spans(self):
        tables = ([0x370, 0x400], [], [0, 0x110000], [it for first in range(0x370, 0x3000, 7) for it in (first, first + 5)])
        texts = ("", "a", "\u03b1", "ab\u03b1\u03b2c", "\u03b1\ud800\U0001f600\u03b2", 700 * "\u03b1b" + 600 * "\u03b1", 70000 * "x" + 70000 * "\u03b1")
        for made, text in itertools.product(map(CodePointSet, tables), texts):
            for one in (made, made.freeze()):
                for start in (0, 1, 3, -2, len(text), len(text) + 5):
                    at = slice(start, None).indices(len(text))[0]
                    wanted = []
                    for held, part in itertools.groupby(text[at:], one.__contains__):
                        wanted.append((at, at + sum(1 for _ in part), held))
                        at = wanted[-1][1]
                    self.assertEqual(list(one.spans(text, start)), wanted)
        spans = self.letters.spans("a b")
        self.assertIs(iter(spans), spans)
        self.assertEqual([next(spans), *spans, next(spans, None)], [(0, 1, True), (1, 2, False), (2, 3, True), None])
        for wrong in (b"abc", 5, None):
            self.assertRaisesRegex(TypeError, "^text: expected a str, found ", self.letters.spans, wrong)
        self.assertRaisesRegex(TypeError, "^start: expected an int, found float$", self.letters.spans, "abc", 1.5)

    def test_span_back(self):
        for made in both_kinds(ENDS[0]):
            self.assertEqual((made.span_back("12ab"), made.span_back("12ab", False), made.span_back("")), (2, 0, 0))
            for count in (0, 1, 511, 512, 513, 65535 + 512, 65536 + 512, 65537 + 512, 200000):
                for more in ("", "1", "\U0001f600", "A1"):
                    self.assertEqual(made.span_back(more + count * "A"), count)
                    self.assertEqual(made.span_back(more + "A" + count * "1" + "xx", False, -2), count)
            text = "ab1\u03b1c"
            for end in (*range(-7, 8), None):
                for held in (True, False):
                    reversed_text = text[:end][::-1]
                    self.assertEqual(made.span_back(text, held, end), made.span(reversed_text, held))
        for wrong in (b"abc", 5, None):
            self.assertRaisesRegex(TypeError, "^text: expected a str, found ", self.letters.span_back, wrong)
        self.assertRaisesRegex(TypeError, "^end: expected an int, found float$", self.letters.span_back, "abc", end=1.5)

    def test_spans_of_bytes(self):
        for made in both_kinds([0x61, 0x63, 0x3B1, 0x3B2, 0x1F600, 0x1F601]):
            for text in ("", "ab", "ab\u03b1\U0001f600c", "cab", 9000 * "a\u03b1" + "c" + 9000 * "\U0001f600"):
                for held in (True, False):
                    kept, last = text[: made.span(text, held)], made.span_back(text, held)
                    for given in (text.encode(), bytearray(text.encode()), memoryview(text.encode())):
                        self.assertEqual(made.span_utf8(given, held), len(kept.encode()))
                        self.assertEqual(made.span_back_utf8(given, held=held), len(text[len(text) - last :].encode()))
        # As uset_spanUTF8 and uset_spanBackUTF8 of ICU4C: without U+FFFD in the set, and with it.
        rows = {
            b"ab1": ((2, 0, 0, 1), (2, 0, 0, 1)),
            b"a\xffbc": ((1, 0, 2, 0), (4, 0, 4, 0)),
            b"1\xff\xe4\xb8ab": ((0, 4, 2, 0), (0, 1, 5, 0)),
            b"\xed\xa0\x801": ((0, 4, 0, 4), (3, 0, 0, 1)),
            b"\xa9\xc3\xa9": ((0, 3, 0, 3), (1, 0, 0, 2)),
            b"b\xf0\x9f\x98": ((1, 0, 0, 3), (4, 0, 4, 0)),
        }
        for text, wanted in rows.items():
            for more, row in zip(([], [0xFFFD, 0xFFFE]), wanted):
                for made in both_kinds([0x41, 0x5B, 0x61, 0x7B, *more]):
                    found = (made.span_utf8(text), made.span_utf8(text, False))
                    self.assertEqual((*found, made.span_back_utf8(text), made.span_back_utf8(text, False)), row)
        for wrong in ("abc", 5, None):
            for call in (self.letters.span_utf8, self.letters.span_back_utf8):
                with self.assertRaisesRegex(TypeError, "^text: expected a bytes-like object, found "):
                    call(wrong)

    def test_frozen(self):
        for ends in ([], [0, 0x110000], *ENDS):
            made = CodePointSet(ends)
            frozen = made.freeze()
            self.assertIs(type(frozen), FrozenCodePointSet)
            self.assertIs(frozen.freeze(), frozen)
            self.assertEqual((frozen, hash(frozen), frozen.ends), (made, hash(made), made.ends))
            self.assertEqual(FrozenCodePointSet(ends), frozen)
            self.assertEqual(repr(frozen), "Frozen" + repr(made))
            members = set(made)
            for c in [*range(0, 0x110000, 97), *ends, *(it - 1 for it in ends if it)]:
                self.assertEqual(c in frozen, c in members)
            for it in copies(frozen):
                self.assertEqual((it, hash(it), type(it)), (frozen, hash(frozen), FrozenCodePointSet))
            for it in (frozen | made, ~frozen, FrozenCodePointSet.from_chars("ab"), FrozenCodePointSet.from_ranges([(1, 2)])):
                self.assertIs(type(it), FrozenCodePointSet)
                self.assertGreater(it.__sizeof__(), it.words.nbytes)
            self.assertIs(type(made | frozen), CodePointSet)

    def test_words_of_a_frozen_set(self):
        # The layout that bekstaudi.h describes.
        last, spaces = [0x10FFFF, 0x110000], CodePointSet.from_chars("\t\n\v\f\r \x85\xa0\u1680\u2028\u2029\u202f\u205f\u3000")
        spaces |= CodePointSet.from_ranges([(0x2000, 0x200A)])
        sizes = (([], 50), ([0, 0x110000], 50), (ENDS[0], 50), (spaces.ends, 110), (last, 1152), (ENDS[1], None))
        for ends, size in sizes:
            frozen, members = FrozenCodePointSet(ends), set(CodePointSet(ends))
            words = frozen.words
            self.assertEqual((words.format, words.itemsize, words.readonly), ("Q", 8, True))
            offsets = [it & 0xFFFFFFFF for it in words[: words[0] & 0xFFFFFFFF]]
            end = len(offsets) - 1
            for c in [*range(0, 0x110000, 97), *range(0x300), *range(0x10FF00, 0x110000)]:
                word = words[offsets[min(c >> 10, end)] + (c >> 6 & 15)]
                self.assertEqual(word >> (c & 63) & 1, c in members)
            self.assertEqual(array.array("Q", words).tobytes(), bytes(words))
            del frozen
            self.assertEqual(len(words[offsets[0] :]) % 16, 0)
            self.assertIn(size, (len(words), None))
        with self.assertRaises(TypeError):
            words[0] = 5
        with self.assertRaises(AttributeError):
            self.letters.words

    def test_frozen_sets_answer_alike(self):
        # A set of many ranges is frozen once it was asked for 512 code points.
        ends = ENDS[1]
        small, large = CodePointSet(ends[:16]), CodePointSet(ends)
        for made in (small, large):
            size = made.__sizeof__()
            members = {it for first, last in made.ranges() for it in range(first, last + 1)}
            wanted = [it for it in range(0, 0x110400, 17) if it in members]
            self.assertEqual([it for it in range(0, 0x110400, 17) if it in made], wanted)
            self.assertEqual(made.__sizeof__() - size > 8000, made is large)
            self.assertNotIn(-1, made)
            self.assertEqual(made.span("".join(map(chr, range(0, 700)))), 700)
            self.assertEqual(made.span("".join(map(chr, range(700, 4999))), False), 4999 - 700)
            self.assertEqual((made | made, hash(made | made)), (made, hash(made)))

    def test_long_spans(self):
        ends = [it for first in range(0x100, 0x10000, 64) for it in (first, first + 32)]
        for made in (CodePointSet([0x41, 0x42]), CodePointSet([0x41, 0x42, *ends])):
            for count in (0, 511, 512, 513, 65535 + 512, 65536 + 512, 65537 + 512, 200000):
                for more in ("", "b", "\U0001f600", "bA"):
                    self.assertEqual(made.span(count * "A" + more), count)
                    self.assertEqual(made.span("x" + count * "b" + "A" + more, False, 1), count)

    def test_span_in_characters(self):
        greek = CodePointSet([0x370, 0x400])
        self.assertEqual(greek.span("\u03b1\u03b2c"), 2)
        self.assertEqual(greek.span("ab\u03b1", held=False), 2)
        self.assertEqual(greek.span(""), 0)

    def test_lists_that_are_no_sets(self):
        for ends in ([1], [2, 1], [1, 1], [0, 0x110001], [-1, 4], [1, 1 << 40]):
            self.assertRaises(InvalidSet, CodePointSet, ends)
        for ends, said in (
            ([1], r"^ends: expected an even count, found 1$"),
            ([1, 9, 9, 12], r"^ends\[2\]: expected more than 9, found 9$"),
            ([0, 0x110001], r"^ends\[1\]: expected a number from 0 to 0x110000, found 1114113$"),
            ([-5, 7], r"^ends\[0\]: expected a number from 0 to 0x110000, found -5$"),
        ):
            self.assertRaisesRegex(InvalidSet, said, CodePointSet, ends)
        self.assertRaises(TypeError, CodePointSet, "AZ")
        for operation in (operator.or_, operator.and_, operator.sub, operator.xor):
            for wrong in (5, None, [0x41], "A"):
                self.assertRaises(TypeError, operation, self.letters, wrong)
                self.assertRaises(TypeError, operation, wrong, self.letters)

if __name__ == "__main__":
    unittest.main()
