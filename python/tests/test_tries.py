"""Tries: look-ups, ranges, sets of a value, and building."""
import unittest

from bekstaudi import CodePointSet, InvalidFormat, TooLarge, Trie, InvalidTrie, WideValue
from samples import NAMES, copies, read, runs_of


class Table(Trie):
    """A subclass with attributes."""

    __slots__ = ("slot", "__dict__")


class Tries(unittest.TestCase):
    def setUp(self):
        self.assertTrue(NAMES)

    def test_ranges_are_the_runs(self):
        for name in NAMES:
            self.assertEqual(list(Trie(read(name)).ranges()), list(runs_of(name)))

    def test_values_of_ends(self):
        for name in NAMES:
            trie, runs = Trie(read(name)), list(runs_of(name))
            firsts = [it[0] for it in runs]
            self.assertEqual([trie[it] for it in firsts], [it[2] for it in runs])
            self.assertEqual(list(trie.values(firsts)), [it[2] for it in runs])
            self.assertEqual([trie[it[1]] for it in runs], [it[2] for it in runs])

    def test_text_and_list_alike(self):
        trie = Trie(read(NAMES[0]))
        text = "aZ9 \u4e16\U0001f600\ud800\0"
        self.assertEqual(list(trie.values(text)), [trie[it] for it in text])
        self.assertEqual(list(trie.values([ord(it) for it in text])), [trie[it] for it in text])
        self.assertEqual((len(trie.values("")), len(trie.values([]))), (0, 0))

    def test_error_value(self):
        trie = Trie(read(NAMES[0]))
        self.assertEqual(trie[0x110000], trie[0xFFFFFFFF])
        for far in (-1, 1 << 32):
            with self.assertRaises(ValueError):
                trie[far]

    def test_what_is_no_code_point(self):
        trie = Trie(read(NAMES[0]))
        for wrong in (97.0, "ab", "", b"a", None):
            with self.assertRaises(TypeError):
                trie[wrong]
            self.assertRaises(TypeError, trie.values, [wrong])

    def test_neither_in_nor_iteration(self):
        trie = Trie(read(NAMES[0]))
        self.assertRaises(TypeError, iter, trie)
        with self.assertRaises(TypeError):
            65 in trie

    def test_copies(self):
        for name in NAMES:
            trie = Trie(read(name) + b"more")
            for it in copies(trie):
                self.assertEqual((it, hash(it), it.data), (trie, hash(trie), read(name)))
                self.assertEqual(list(it.ranges()), list(trie.ranges()))
        self.assertEqual(len({Trie(read(it)) for it in NAMES}), len({read(it) for it in NAMES}))
        self.assertNotEqual(trie, trie.data)

    def test_copies_of_subclasses(self):
        made = Table(read(NAMES[0]) + b"more")
        made.name, made.slot = "A", {3}
        for it in copies(made):
            self.assertEqual((it, it.data, type(it), it.name, it.slot), (made, read(NAMES[0]), Table, "A", {3}))

    def test_values_of_bytes(self):
        for width in (1, 2, 4):
            trie = Trie.build([("a", "z", 1), ("\u03b1", "\U0001f600", 2)], 0, 9, width)
            for text in (b"", b"az!", "a\u03b1\U0001f600".encode(), 9000 * "a\u03b1\U0001f600".encode(),
                         b"a\xff\xe4\xb8z\xed\xa0\x80", b"\xf0\x9f\x98", b"\xf4\x90\x80\x80a"):
                # Python's decoder has one U+FFFD for each ill-formed part.
                wanted = [9 if c == "\ufffd" else trie[c] for c in text.decode(errors="replace")]
                for given in (text, bytearray(text), memoryview(text)):
                    found = trie.values_utf8(given)
                    self.assertEqual((list(found), found.itemsize), (wanted, width))
        for wrong in ("abc", 5, None):
            with self.assertRaisesRegex(TypeError, "^text: expected a bytes-like object, found "):
                trie.values_utf8(wrong)

    def test_slices_are_values_of_ranges(self):
        for name in NAMES:
            trie = Trie(read(name))
            values = trie.values(range(0x110000))
            self.assertEqual(trie[:], values)
            for part in (slice(0x41, 0x5B), slice(0x10FFF0, None), slice(None, None, -7), slice(9, 3)):
                self.assertEqual(list(trie[part]), list(values[part]))
            with self.assertRaises(TypeError):
                trie["A":"Z"]

    def test_repr(self):
        self.assertRegex(repr(Trie.build([], width=2)), r"^<Trie: fast, values of 16 bits, \d+ bytes>$")
        self.assertRegex(repr(Trie.build([], small=True)), r"^<Trie: small, values of 8 bits, \d+ bytes>$")

    def test_no_numbers(self):
        for wrong, name in (({"default": 1.0}, "default"), ({"error": 1.5}, "error"), ({"width": 1.0}, "width")):
            with self.assertRaisesRegex(TypeError, f"^{name}: expected an int, found float$"):
                Trie.build([(0, 1, 2)], **wrong)
        with self.assertRaisesRegex(TypeError, "^the value of a row: expected an int, found float$"):
            Trie.build([(0, 1, 2.0)])
        with self.assertRaisesRegex(TypeError, "^value: expected an int, found float$"):
            Trie(read(NAMES[0])).set_of(1.0)

    def test_arguments_by_name(self):
        trie = Trie(read(NAMES[0]))
        self.assertEqual(trie.values(code_points="ab"), trie.values("ab", None))
        for wrong, said in (
            (lambda: trie.values(), r"^values\(\) lacks the argument code_points$"),
            (lambda: trie.values("a", None, 5), r"^values\(\) takes at most 2 arguments, found 3$"),
            (lambda: trie.values("a", code_points="b"), r"^values\(\) has two arguments code_points$"),
            (lambda: trie.values("a", points="b"), r"^values\(\) has no argument 'points'$"),
            (lambda: trie.values(5), "^code_points: expected a str, integers in a buffer or an iterable, found int$"),
            (lambda: trie.values([1.0]), "^code point: expected an int or a str, found float$"),
            (lambda: trie[1.0], "^code point: expected an int or a str, found float$"),
            (lambda: trie["ab"], "^code point: expected one character, found a str of length 2$"),
        ):
            self.assertRaisesRegex(TypeError, said, wrong)

    def test_no_bytes(self):
        for wrong in (5, True, "abc", None, [1, 2], object()):
            self.assertRaises(TypeError, Trie, wrong)

    def test_what_a_trie_says_of_itself(self):
        for name in NAMES:
            data = read(name)
            trie = Trie(data + b"more")
            self.assertEqual(trie.size, len(data))
            self.assertIn(trie.value_bits, (8, 16, 32))
            self.assertTrue(trie.is_coherent())

    def test_set_of_a_value(self):
        for name in NAMES:
            trie, runs = Trie(read(name)), list(runs_of(name))
            value = runs[0][2]
            wanted = [it[:2] for it in runs if it[2] == value]
            self.assertEqual(trie.set_of(value).ranges(), wanted)
            self.assertNotIn(77777777, [it[2] for it in runs])
            for absent in (77777777, -1, (1 << 32) + value):
                self.assertEqual(trie.set_of(absent), CodePointSet())

    def test_faults_by_name(self):
        data = bytearray(read(NAMES[0]))
        faults = {"SHORT": data[:15], "CUT_OFF": data[:-1], "SIGNATURE": b"x" + data[1:]}
        faults["SWAPPED"] = data[3::-1] + data[4:]
        faults["RESERVED"] = data[:4] + bytes([data[4] | 8]) + data[5:]
        faults["UNKNOWN_WIDTH"] = data[:4] + bytes([data[4] | 7]) + data[5:]
        faults["UNKNOWN_TYPE"] = data[:4] + bytes([data[4] | 0xC0]) + data[5:]
        faults["SHORT_INDEX"] = data[:6] + b"\1\0" + data[8:]
        faults["EMPTY_DATA"] = data[:8] + b"\0\0" + data[10:]
        faults["SHORT_DATA"] = data[:8] + b"\x40\0" + data[10:]
        for name, fault in faults.items():
            with self.assertRaises(InvalidTrie) as told:
                Trie(bytes(fault))
            self.assertEqual(told.exception.status, name)
            self.assertRegex(str(told.exception), rf"^the bytes are not a trie: [a-z0-9 ,-]{{15,}} \({name}\)$")
            told.exception.more = 5
            for it in copies(told.exception):
                self.assertEqual((it.status, str(it), it.more), (name, str(told.exception), 5))
        self.assertRaises(InvalidTrie, Trie, b"")


class Building(unittest.TestCase):
    def test_built_of_runs(self):
        for name in NAMES:
            runs = list(runs_of(name))
            for small in (False, True):
                trie = Trie.build(runs, error=255, small=small)
                self.assertEqual(list(trie.ranges()), runs)
                self.assertEqual((trie.is_fast, trie[0x110000]), (not small, 255))
                self.assertEqual(list(Trie(trie.data + b"more").ranges()), runs)
                self.assertTrue(trie.is_coherent())

    def test_later_rows_cover_earlier_ones(self):
        trie = Trie.build([("A", "Z", 1), ("C", "D", 2), (9, 8, 3), (0x10FFFF, 1 << 31, 4)], 5, 6)
        self.assertEqual([trie[it] for it in "@ABCDEZ["], [5, 1, 1, 2, 2, 1, 1, 5])
        self.assertEqual([trie[it] for it in (8, 9, 0x10FFFF, 0x110000)], [5, 5, 4, 6])

    def test_width(self):
        for largest, bits in ((0, 8), (255, 8), (256, 16), (65535, 16), (65536, 32)):
            self.assertEqual(Trie.build([(0, 0, largest)]).value_bits, bits)
            self.assertEqual(Trie.build([], default=largest).value_bits, bits)
        self.assertEqual(Trie.build([], width=2).value_bits, 16)

    def test_refusals(self):
        for rows, default, error in (([(0, 1, 256)], 0, 0), ([], 256, 0), ([], 0, 256)):
            self.assertRaises(WideValue, Trie.build, rows, default, error, width=1)
        for value in (-1, 1 << 32):
            self.assertRaises(WideValue, Trie.build, [(0, 1, value)])
        for width in (0, 3, (1 << 32) + 1):
            self.assertRaises(InvalidFormat, Trie.build, [], width=width)
        self.assertRaisesRegex(TooLarge, "too large", Trie.build, [(it, it, it) for it in range(0x110000)])

    def test_what_is_said_of_refusals(self):
        rows = [(0, 1, 5), ("A", "Z", 300), ("a", "z", 1 << 32)]
        for given, said in (
            ({"rows": rows[:2]}, r"^rows\[1\], 0x41..=0x5a: 300 is not an unsigned number of 8 bits$"),
            ({"rows": rows}, r"^rows\[2\], 0x61..=0x7a: 4294967296 is not an unsigned number of 32 bits$"),
            ({"rows": [], "default": -1}, "^default: -1 is not an unsigned number of 32 bits$"),
            ({"rows": [], "error": 256}, "^error: 256 is not an unsigned number of 8 bits$"),
        ):
            self.assertRaisesRegex(WideValue, said, Trie.build, **given, width=1)
        self.assertRaisesRegex(InvalidFormat, "1, 2 or 4 bytes, found 3", Trie.build, [], width=3)

if __name__ == "__main__":
    unittest.main()
