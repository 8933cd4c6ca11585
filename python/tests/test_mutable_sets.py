"""Sets that are changed in place, beside sets of Python."""
import operator
import random
import unittest

from bekstaudi import CodePointSet, InvalidSet, MutableCodePointSet
from samples import copies


class MutableSets(unittest.TestCase):
    def test_changes_as_a_set_of_python(self):
        some = random.Random(5)
        for _ in range(60):
            first = {some.randrange(300) for _ in range(some.randrange(200))}
            made, wanted = MutableCodePointSet(first), set(first)
            for _ in range(60):
                c = some.randrange(300)
                others = {some.randrange(300) for _ in range(some.choice((3, 150)))}
                other = some.choice((others, CodePointSet.from_chars(others), MutableCodePointSet(others)))
                change = some.choice(("add", "discard", "ior", "iand", "isub", "ixor", "update", "in", "len"))
                if change in ("add", "discard"):
                    getattr(made, change)(some.choice((c, chr(c))))
                    getattr(wanted, change)(c)
                elif change == "update":
                    made.update(other, [c])
                    wanted.update(others, [c])
                elif change == "in":
                    self.assertEqual((c in made, chr(c) in made), (c in wanted, c in wanted))
                elif change == "len":
                    self.assertEqual((len(made), made.as_set()), (len(wanted), wanted))
                else:
                    before, join = made, getattr(operator, change)
                    made, wanted = join(made, other), join(wanted, others)
                    self.assertIs(made, before)
            self.assertEqual((list(made), made, made.as_set()), (sorted(wanted), wanted, wanted))

    def test_operators_leave_both(self):
        made, other = MutableCodePointSet("abc"), CodePointSet.from_chars("bcd")
        made.add("z")
        for join in (operator.or_, operator.and_, operator.sub, operator.xor):
            found = join(made, other)
            self.assertIs(type(found), MutableCodePointSet)
            self.assertEqual(found, join(set(map(ord, "abcz")), set(other)))
        self.assertEqual((made, other), (set(map(ord, "abcz")), set(map(ord, "bcd"))))
        self.assertTrue(made > {0x61} and made >= made and not made < made and made != other and made <= set(made))
        self.assertEqual(made.copy(), made)
        self.assertTrue(made.isdisjoint({1, 2}) and not made.isdisjoint(other))

    def test_what_as_set_returned_stays(self):
        made = MutableCodePointSet(range(0x61, 0x64))
        before = made.as_set()
        made.add("z")
        made |= CodePointSet([0x30, 0x3A])
        self.assertEqual(before, {0x61, 0x62, 0x63})
        self.assertEqual(made.ranges(), [(0x30, 0x39), (0x61, 0x63), (0x7A, 0x7A)])
        made.clear()
        self.assertEqual((len(made), list(made), repr(made)), (0, [], "MutableCodePointSet(CodePointSet([]))"))

    def test_remove_and_pop(self):
        made = MutableCodePointSet("ab")
        made.remove("a")
        with self.assertRaises(KeyError):
            made.remove("a")
        self.assertEqual((made.pop(), len(made)), (0x62, 0))
        with self.assertRaises(KeyError):
            made.pop()

    def test_copies(self):
        made = MutableCodePointSet("ab")
        made.add("c")
        for copy in copies(made):
            copy.add("d")
            self.assertEqual((copy, made), ({0x61, 0x62, 0x63, 0x64}, {0x61, 0x62, 0x63}))

    def test_what_is_no_code_point(self):
        made = MutableCodePointSet("a")
        for wrong in ("", "ab", None, 1.5):
            for call in (made.add, made.discard, made.__contains__):
                with self.assertRaises(TypeError):
                    call(wrong)
        with self.assertRaises(InvalidSet):
            made.add(0x110000)
        made.discard(0x110000)
        self.assertFalse(0x110000 in made or -1 in made)
        with self.assertRaises(TypeError):
            made |= [1]
        with self.assertRaises(TypeError):
            hash(made)
        self.assertEqual(made, {0x61})
