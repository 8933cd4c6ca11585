"""Sets that are changed in place."""
import collections.abc
import operator

from . import CodePointSet, _native
from ._errors import InvalidSet

# An operator collects the code points of a set with at most so many.
_FEW = 64


class MutableCodePointSet(collections.abc.MutableSet):
    """A set of code points that is changed in place, as a set of Python is.

    `MutableCodePointSet(code_points)` starts with the code points of a set, a str, a range, any other
    iterable, or integers in a buffer. `as_set` returns what it has at that moment as a CodePointSet.

    Changes of few code points are collected, and join the set when it is next listed or compared, so a
    loop over `add` or `in` takes time for the changes alone. Raises InvalidSet for a number outside
    0..=0x10FFFF that is added.
    """

    __module__ = "bekstaudi"
    __slots__ = ("_made", "_changes", "__weakref__")
    __hash__ = None

    def __init__(self, code_points=()):
        self._made = self._plain(CodePointSet._as_set(self._plain(code_points)))
        # Of the code points that changed since: whether they are in the set now.
        self._changes = {}

    @staticmethod
    def _plain(other):
        """Return another set, and a set of this class as a CodePointSet."""
        return other.as_set() if isinstance(other, MutableCodePointSet) else other

    def as_set(self):
        """Return the set as a CodePointSet, which later changes leave as it is."""
        if self._changes:
            added = CodePointSet.from_chars([c for c, held in self._changes.items() if held])
            changed = CodePointSet.from_chars(list(self._changes))
            self._made = (self._made - changed) | added
            self._changes = {}
        return self._made

    def add(self, code_point):
        """Add a code point."""
        number = _native.point(code_point)
        if number > 0x10FFFF:
            raise InvalidSet(f"code point: expected a number from 0 to 0x10FFFF, found {number}")
        self._changes[number] = True

    def discard(self, code_point):
        """Remove a code point, if it is in the set."""
        if code_point in self:
            self._changes[_native.point(code_point)] = False

    def clear(self):
        """Remove all code points."""
        self._made, self._changes = CodePointSet(), {}

    def update(self, *others):
        """Add the code points of other sets or iterables."""
        for other in others:
            self |= CodePointSet._as_set(self._plain(other))

    def copy(self):
        """Return another set with the same code points."""
        return type(self)(self)

    def ranges(self):
        """Return the ranges of code points in order: a list of first and last ones, inclusive."""
        return self.as_set().ranges()

    def _changed(self, join, other):
        """Join the set with another one."""
        other = self._plain(other)
        if not isinstance(other, collections.abc.Set):
            return NotImplemented
        self._made = join(self.as_set(), other)
        return self

    def __ior__(self, other):
        # A few code points join the changes, so that a loop over such sets is not quadratic.
        if isinstance(other, CodePointSet) and len(other) <= _FEW:
            self._changes.update(dict.fromkeys(other, True))
            return self
        return self._changed(operator.or_, other)

    def __iand__(self, other):
        return self._changed(operator.and_, other)

    def __isub__(self, other):
        if isinstance(other, CodePointSet) and len(other) <= _FEW:
            self._changes.update(dict.fromkeys(other, False))
            return self
        return self._changed(operator.sub, other)

    def __ixor__(self, other):
        return self._changed(operator.xor, other)

    def __or__(self, other):
        return self.copy()._changed(operator.or_, other)

    def __and__(self, other):
        return self.copy()._changed(operator.and_, other)

    def __sub__(self, other):
        return self.copy()._changed(operator.sub, other)

    def __xor__(self, other):
        return self.copy()._changed(operator.xor, other)

    def __eq__(self, other):
        return self.as_set() == self._plain(other)

    def __le__(self, other):
        return self.as_set() <= self._plain(other)

    def __lt__(self, other):
        return self.as_set() < self._plain(other)

    def __ge__(self, other):
        return self.as_set() >= self._plain(other)

    def __gt__(self, other):
        return self.as_set() > self._plain(other)

    def __contains__(self, key):
        held = key in self._made
        if not self._changes:
            return held
        return self._changes.get(ord(key) if isinstance(key, str) else operator.index(key), held)

    def __len__(self):
        return len(self.as_set())

    def __iter__(self):
        return iter(self.as_set())

    def __reduce__(self):
        return type(self), (self.as_set(),)

    def __repr__(self):
        return f"{type(self).__name__}({self.as_set()!r})"
