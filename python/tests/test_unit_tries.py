"""Unit tries."""
import collections.abc
import copy
import os
import tracemalloc
import unittest

from bekstaudi import BekstaudiError, LongKey, NotATrie, SameKey, UnitTrie, UnitTrieCursor, WideUnit, WideValue
from samples import FOLDER, copies


class Words(UnitTrie):
    """A subclass with attributes."""

    __slots__ = ("slot", "__dict__")


class UnitTries(unittest.TestCase):
    worked = UnitTrie(bytes.fromhex("30006100B00062006480"))
    pair = UnitTrie(bytes.fromhex("30003DD8B00000DE0280"))

    def test_keys(self):
        self.assertEqual((self.worked["a"], self.worked["ab"]), (1, 100))
        self.assertEqual([it in self.worked for it in ("", "a", "b", "ab", "abc")], [0, 1, 0, 1, 0])
        self.assertEqual((self.worked.get("b"), self.worked.get("b", 7)), (None, 7))
        with self.assertRaises(KeyError):
            self.worked["abc"]

    def test_surrogates(self):
        self.assertEqual((self.pair["\U0001f600"], self.pair["\ud83d"]), (2, 1))
        self.assertEqual(self.pair[[0xD83D, 0xDE00]], 2)
        self.assertEqual(self.pair.longest("\U0001f600!"), ("\U0001f600", 2))
        self.assertIsNone(self.pair.longest("\U0001f601"))

    def test_longest(self):
        self.assertEqual(self.worked.longest("abba"), ("ab", 100))
        self.assertEqual(self.worked.longest("acb"), ("a", 1))
        self.assertIsNone(self.worked.longest("ba"))
        self.assertIsNone(self.worked.longest(""))
        self.assertEqual(UnitTrie(b"\x07\x80").longest(""), ("", 7))

    def test_longest_from_a_start(self):
        words = {"a": 1, 2000 * "a": 2, "\u4e16": 3, 1100 * "\u4e16": 4}
        words.update({"\ud83d": 5, "\U0001f600!": 6})
        trie = UnitTrie.build(words)
        for text in ("a", "\u4e16", "\U0001f600!", "\U0001f601", "z"):
            for count in (1, 1023, 1024, 1025, 1099, 1100, 1999, 2000, 2001, 9000):
                shown = "-" + count * text + "\u00e9"
                found = [it for it in words if shown.startswith(it, 1)]
                wanted = (max(found, key=len), words[max(found, key=len)]) if found else None
                self.assertEqual(trie.longest(shown, 1), wanted)
                self.assertEqual(trie.longest(shown[1:]), wanted)
        for start in range(-3, 4):
            self.assertEqual(trie.longest("ba", start), trie.longest("ba"[start:]))
        self.assertEqual(trie.longest("a" + 3000 * " " + "\ud800"), ("a", 1))
        for wrong in (b"a", 5, None):
            self.assertRaises(TypeError, trie.longest, wrong)

    def test_longest_with_lone_surrogates(self):
        trie = UnitTrie.build({"a": 1, "\ud83d": 2, "\ud83db": 3, "\U0001f600": 4, "\ude00": 5})
        self.assertEqual(trie.longest("a\ud800"), ("a", 1))
        self.assertEqual(trie.longest("\ud83d"), ("\ud83d", 2))
        self.assertEqual(trie.longest("\ud83db"), ("\ud83db", 3))
        self.assertEqual(trie.longest("\ude00\ud83d"), ("\ude00", 5))
        self.assertEqual(trie.longest("\U0001f600"), ("\U0001f600", 4))
        # The units of this character start with those of a key, which ends within it.
        self.assertIsNone(trie.longest("\U0001f601"))
        self.assertIsNone(trie.longest("\ud83c"))

    def test_prefixes(self):
        words = {"": 9, "a": 1, "ab": 2, "abcd": 3, "abce": 4, "b": 5, "\ud83d": 6, "\U0001f600x": 7}
        trie = UnitTrie.build(words)
        for text in ("", "abcdef", "abc", "b", "zabce", "\U0001f600xy", "\ud83d", "\U0001f601"):
            for start in (0, 1, -2):
                rest = text[start:]
                wanted = sorted((it for it in words if rest.startswith(it)), key=len)
                self.assertEqual(trie.prefixes(text, start), [(it, words[it]) for it in wanted])
                self.assertEqual(trie.longest(text, start), trie.prefixes(text, start)[-1])
        self.assertEqual(UnitTrie(b"").prefixes("abc"), [])

    def test_damaged_units(self):
        words = [f"{it:x}" for it in range(1, 4000, 7)] + ["\U0001f600\U0001f601", "\u4e16\ud83d"]
        whole = UnitTrie.build({it: len(it) for it in words})
        damaged = bytes(it ^ (place % 97 == 5) for place, it in enumerate(whole.data))
        for units in (whole.data, damaged, whole.data[:99], whole.data[:98]):
            trie = UnitTrie(units)
            for text in (*words, "\u4e16\U0001f601", "\U0001f600\U0001f602", "ff.ff", "", "f"):
                found = [(it, trie[it]) for it in map(text.__getitem__, map(slice, range(len(text) + 1))) if it in trie]
                self.assertEqual(trie.prefixes(text), found)
                self.assertEqual(trie.longest(text), found[-1] if found else None)

    def test_cursors(self):
        trie = UnitTrie.build({"car": 2, "cat": 3, "category": 4, "\U0001f600": 5})
        here = trie.cursor()
        self.assertEqual((here.value, here.next_units(), here.unique_value()), (None, [0x63, 0xD83D], None))
        self.assertTrue(here.step("ca"))
        before_t = here.copy()
        self.assertEqual((here.step("t"), here.value, here.unique_value()), (True, 3, None))
        self.assertEqual((here.step("eg"), here.value, here.unique_value()), (True, None, 4))
        self.assertEqual((here.step("ory"), here.value, here.next_units()), (True, 4, []))
        self.assertEqual((before_t.step([0x72]), before_t.value, before_t.unique_value()), (True, 2, 2))
        for after_the_last in ("", "x", "r"):
            self.assertEqual(before_t.step(after_the_last), after_the_last == "")
        self.assertEqual((before_t.step(""), before_t.value, before_t.next_units()), (False, None, []))
        self.assertEqual([trie.cursor().step(it) for it in ("\ud83d", "\U0001f600", "\U0001f601", "")], [1, 1, 0, 1])
        self.assertFalse(UnitTrie(b"").cursor().step(""))
        for wrong in (b"a", 5, None):
            self.assertRaises(TypeError, here.step, wrong)
        self.assertRaises(WideUnit, here.step, [70000])
        self.assertRaises(TypeError, UnitTrieCursor, "cat")

    def test_cursors_of_many_units(self):
        trie = UnitTrie.build({chr(it) + "b": it % 3 for it in range(0x100, 0x1400)})
        self.assertEqual(trie.cursor().next_units(), list(range(0x100, 0x1400)))
        damaged = UnitTrie(bytes(it ^ (place % 97 == 5) for place, it in enumerate(trie.data)))
        for it in range(0x100, 0x1400):
            here, there = trie.cursor(), damaged.cursor()
            self.assertEqual((here.step(chr(it)), here.unique_value()), (True, it % 3))
            there.step(chr(it) + "b")
            self.assertEqual((there.value, copy.copy(there).value), 2 * (damaged.get(chr(it) + "b"),))

    def test_as_a_mapping(self):
        words = {"car": 2, "cat": 3, "": -1}
        trie = UnitTrie.build(words)
        self.assertEqual((len(trie), trie.keys()), (3, ["", "car", "cat"]))
        self.assertEqual(trie.values(), [-1, 2, 3])
        self.assertEqual((dict(trie), {**trie}, list(trie)), (words, words, sorted(words)))
        self.assertEqual([bool(it) for it in (trie, UnitTrie(b""))], [True, False])
        for asks in (len, bool, list):
            self.assertRaisesRegex(NotATrie, "units are not a trie", asks, UnitTrie(b"\x30\0"))

    def test_the_units_are_validated_once(self):
        words = {f"{it:x}": it for it in range(300)}
        units = bytearray(UnitTrie.build(words).data)
        trie, none = UnitTrie(memoryview(units).toreadonly()), UnitTrie(b"\x30\0")
        self.assertEqual((len(trie), bool(trie), trie == words, none.count()), (300, True, True, None))
        # What these units say now is unspecified; the count shows that nobody asks them.
        units[:] = bytes(len(units))
        self.assertEqual((len(trie), bool(trie), trie.count(), trie == {}, none.count()), (300, True, 300, False, None))
        for asks in (len, bool):
            self.assertRaises(NotATrie, asks, none)

    def test_iteration(self):
        for count in (0, 1, 15, 16, 17, 79, 80, 81, 335, 336, 337, 5000):
            trie = UnitTrie.build({f"{it:x}\u4e16": it for it in range(count)})
            self.assertEqual((list(trie), list(trie.iter_items())), (trie.keys(), trie.items()))
            self.assertEqual(list(zip(trie, range(count))), list(zip(trie.keys(), range(count))))
        words = {"": 1, "\ud83d": 2, "\U0001f600": 3, "a" * 5000: 4, "\u4e16" * 9000: 5, "b" * 60000: 6}
        self.assertEqual(list(UnitTrie.build(words)), UnitTrie.build(words).keys())
        units = UnitTrie.build({f"{it:x}": it for it in range(900)}).data
        for damaged in (units[:999], units[:98], units[7:999], b"", b"\x30\0"):
            self.assertEqual(list(iter(UnitTrie(damaged))), UnitTrie(damaged).keys())

    def test_the_first_key_lists_no_others(self):
        trie = UnitTrie.build({f"{it:x}": it for it in range(30000)})
        tracemalloc.start()
        self.assertEqual((next(iter(trie)), next(trie.iter_items())), ("0", ("0", trie["0"])))
        taken = tracemalloc.get_traced_memory()[1]
        tracemalloc.stop()
        self.assertLess(taken, 20000)

    def test_copies_of_subclasses(self):
        made = Words(self.worked.data)
        made.name, made.slot = "A", {3}
        for it in copies(made):
            self.assertEqual((it, it.items(), type(it), it.name, it.slot), (made, made.items(), Words, "A", {3}))

    def test_equal_to_mappings(self):
        words = {"car": 2, "cat": 3, "\ud83d": 5, "\U0001f600": 6}
        trie = UnitTrie.build(words)
        for same in (words, collections.OrderedDict(words), UnitTrie.build(words)):
            self.assertTrue(trie == same and same == trie and not trie != same)
        self.assertEqual(collections.ChainMap({"car": 2}), UnitTrie.build({"car": 2}))
        more, less = {**words, "x": 1}, {it: words[it] for it in ("car", "cat")}
        for other in (more, less, {**words, "cat": 4}, {**less, "x": 5, "y": 6}, {**less, 5: 5, 6: 6}, {}, [*words], 5, None):
            self.assertTrue(trie != other and other != trie and not trie == other)
        self.assertNotEqual(UnitTrie.build({"a": 1, "b": 2}), {"a": 1, "x": None})
        # Two keys of a dict that are one key of a trie.
        self.assertNotEqual(UnitTrie.build({"\U0001f600": 2, "x": 2}), {"\U0001f600": 2, "\ud83d\ude00": 2})
        self.assertEqual(UnitTrie(b""), {})
        self.assertNotEqual(UnitTrie(b"\x30\0"), {})

    def test_below_a_prefix(self):
        words = ["", "a", "ab", "abc", "abd", "abcdefghijklmnopqrstuvwxyz", "b" * 40, "b" * 40 + "c", "\u00e9", "\U0001f600"]
        words += [f"p{it:x}" for it in range(300)] + [f"s{chr(0x1F600 + it)}" for it in range(5)] + ["s\U0001f600\U0001f601x"]
        words += ["t\U0001f600", "u\U0001f600\U0001f601", "u\U0001f600\U0001f602", "uu\U00010000", "uu\uffff"]
        trie = UnitTrie.build({it: place for place, it in enumerate(words)})
        everything = trie.items()
        self.assertEqual(sorted(key for key, _ in everything), sorted(words))
        for word in words:
            for prefix in {word[:it] for it in range(len(word) + 1)} | {word + "x", word + "\U0001f600", "x" + word}:
                wanted = [it for it in everything if it[0].startswith(prefix)]
                self.assertEqual(trie.items(prefix), wanted, prefix)
                self.assertEqual(trie.items(prefix=[*memoryview(prefix.encode("utf-16-le")).cast("H")]), wanted)
                self.assertEqual(trie.keys(prefix), [key for key, _ in wanted])
                self.assertEqual(trie.values(prefix=prefix), [value for _, value in wanted])
        self.assertEqual(len(trie.items("s\ud83d")), 6)
        self.assertEqual(trie.items("s\ud83d")[:2], trie.items("s")[:2])
        for wrong in (5, None, b"a"):
            with self.assertRaisesRegex(TypeError, "^key: expected a str or a list of 16-bit units, found "):
                trie.items(wrong)

    def test_below_a_prefix_of_icu_and_damaged(self):
        tries = [UnitTrie(b""), UnitTrie(b"\x30"), UnitTrie(b"\x30\0")]
        if os.path.exists(f"{FOLDER}/names.units"):
            with open(f"{FOLDER}/names.units", "rb") as file:
                units = file.read()
            tries += [UnitTrie(units)]
            everything = tries[-1].items()
            for prefix in ("LATIN", "LATIN SMALL LETTER A", "G", "GREEK SMALL LETTER OMEG", "ZZZ", "CJK"):
                self.assertEqual(tries[-1].items(prefix), [it for it in everything if it[0].startswith(prefix)])
        words = {f"{it:x}\U0001f600": it for it in range(500)}
        units = UnitTrie.build(words).data
        tries += [UnitTrie(bytes(it ^ (place % 97 == 5) for place, it in enumerate(units))), UnitTrie(units[:99])]
        for trie in tries[:3] + tries[-2:]:
            for prefix in (*words, *"0123456789abcdef", "1\ud83d"):
                if trie.items(prefix):
                    self.assertTrue(all(key.startswith(prefix[:1]) for key in trie.keys(prefix)))

    def test_shown_keys_that_are_none(self):
        trie = UnitTrie.build({"\ud83d": 6, "\ufffd": 9})
        self.assertEqual((len(trie), trie.items()), (2, [("\ufffd", 6), ("\ufffd", 9)]))
        self.assertEqual((trie["\ud83d"], dict(trie)), (6, {"\ufffd": 9}))
        self.assertRaises(KeyError, dict, UnitTrie.build({"\ud83d": 6}))

    def test_copies(self):
        for trie in (self.worked, self.pair, UnitTrie(b"")):
            for it in copies(trie):
                self.assertEqual((it, hash(it), it.items()), (trie, hash(trie), trie.items()))
        self.assertEqual(UnitTrie(self.worked.data + b"x"), self.worked)
        self.assertNotEqual(self.worked, self.pair)
        self.assertNotEqual(self.worked, self.worked.data)

    def test_no_bytes(self):
        for wrong in (5, True, "abc", None, [1, 2]):
            self.assertRaises(TypeError, UnitTrie, wrong)

    def test_no_keys(self):
        for wrong in (5, None, {0x61}, ["a"], [1.0], b"a", bytearray(b"a")):
            for asks in (self.worked.__getitem__, self.worked.__contains__, self.worked.get):
                self.assertRaisesRegex(TypeError, "^key: expected a str or a list of ", asks, wrong)
        for wrong in (b"a", bytearray(b"ab")):
            self.assertRaisesRegex(TypeError, "^key: expected a str or a list of ", UnitTrie.build, [(wrong, 1)])
        for asks in (self.worked.longest, self.worked.prefixes):
            self.assertRaisesRegex(TypeError, "^text: expected a str, found bytes$", asks, b"a")
            self.assertRaisesRegex(TypeError, "^start: expected an int, found float$", asks, "a", start=1.0)
        for wrong in ([-1], [0x10000], [1 << 70], (97, -5)):
            for error in (WideUnit, OverflowError, ValueError, BekstaudiError):
                with self.assertRaisesRegex(error, f"^key: {wrong[-1]} is not an unsigned number of 16 bits$"):
                    self.worked.get(wrong)
                with self.assertRaisesRegex(error, rf"^key \[(97, )?{wrong[-1]}\]: {wrong[-1]} is not an unsigned number of 16 bits$"):
                    UnitTrie.build([(wrong, 1)])
        with self.assertRaisesRegex(WideUnit, r"^key \[0, 1, 2, 3, 4, 5, \.\.\.\]: 70000 is not an unsigned"):
            UnitTrie.build([(iter([*range(50), 70000]), 1)])
        self.assertRaises(TypeError, UnitTrie.build, {"a": 1.0})
        self.assertEqual(self.worked.get("b", default=7), 7)
        self.assertNotIn(300 * "\U0001f600", self.worked)

    def test_repr(self):
        self.assertEqual((repr(self.worked), repr(UnitTrie(b"x"))), ("<UnitTrie: 5 units>", "<UnitTrie: 0 units>"))

    def test_is_a_mapping(self):
        self.assertIsInstance(self.worked, collections.abc.Mapping)

    def test_no_units(self):
        for units in (b"", b"\x30", b"\x30\0"):
            self.assertNotIn("0", UnitTrie(units))
            self.assertIsNone(UnitTrie(units).longest("0"))

    def test_built(self):
        words = {"ab": 2, "a": 1, "": -7, "\ud83d": 3, "\U0001f600": -(1 << 31)}
        trie = UnitTrie.build(words)
        self.assertEqual({it: trie[it] for it in words}, words)
        shown = [("", -7), ("a", 1), ("ab", 2), ("\ufffd", 3), ("\U0001f600", -(1 << 31))]
        self.assertEqual(trie.items(), shown)
        self.assertEqual(list(trie), [key for key, _ in shown])
        self.assertEqual((trie.count(), UnitTrie(b"").count(), UnitTrie(b"\x30\0").count()), (5, 0, None))
        self.assertEqual(UnitTrie.build([([0x61], 1), ("ab", 2)]).data.hex(), "30006100b00062000280")
        self.assertEqual((UnitTrie.build({}).data, UnitTrie.build({}).items()), (b"", []))
        many = {f"{it:x}": it for it in range(5000)}
        self.assertEqual(UnitTrie.build(many).items(), sorted(many.items()))

    def test_entries_refused(self):
        for entries, why, said in (
            ([("b", 0), ("a", 1), ([0x61], 2)], SameKey, "^key 'a': 2 entries have it$"),
            ({"b": 0, "a" * 65536: 1}, LongKey, r"^key 'a{40}'\.\.\.: 65536 units are more"),
            ({"b": 0, "a": 1 << 31}, WideValue, "^key 'a': 2147483648 is not a signed number"),
            ({"\ud83d": -(1 << 31) - 1}, WideValue, r"^key '\\ud83d': -2147483649 is not"),
        ):
            self.assertRaisesRegex(why, said, UnitTrie.build, entries)

    def test_names(self):
        if not os.path.exists(f"{FOLDER}/names.units"):
            self.skipTest("no ICU")
        with open(f"{FOLDER}/names.units", "rb") as file:
            trie = UnitTrie(file.read())
        with open(f"{FOLDER}/names.keys.txt", encoding="ascii") as file:
            for line in file:
                key, _, value = line.strip().partition(";")
                self.assertEqual(trie[key], int(value))
                self.assertEqual(trie.longest(f"{key};"), (key, int(value)))

if __name__ == "__main__":
    unittest.main()
