"""Values of code points, sets of code points, and dictionaries of words.

    >>> from bekstaudi import CodePointSet, Trie, UnitTrie
    >>> trie = Trie.build([("A", "Z", 1), ("a", "z", 2)])
    >>> trie["A"], trie["!"], list(trie.values("Hi!"))
    (1, 0, [1, 2, 0])
    >>> CodePointSet([0x41, 0x5B]) | CodePointSet.from_ranges([("a", "z")])
    CodePointSet([0x41, 0x5b, 0x61, 0x7b])
    >>> UnitTrie.build({"cat": 3, "car": 2}).longest("category")
    ('cat', 3)

A code point is an int, or a str of one character; anything else is a TypeError. Objects never
change, but for a MutableCodePointSet. They read bytes-like objects in place if these are read-only,
such as bytes and `mmap.mmap(file.fileno(), 0, access=mmap.ACCESS_READ)`, and copy all others. The
bytes of a mapped file must not change while an object uses them: results are then unspecified, but
memory-safe.
"""
import collections.abc
import functools
import itertools
import operator
import reprlib
from array import array

try:
    from . import _native
except ImportError as fault:
    raise ImportError(f"bekstaudi: no extension module for this Python ({fault}): pip install ./python") from fault
from ._errors import (
    BekstaudiError,
    LongKey,
    InvalidFormat,
    NoMemory,
    InvalidSet,
    NotATrie,
    SameKey,
    TooLarge,
    InvalidTrie,
    WideUnit,
    WideValue,
)

__all__ = ["BekstaudiError", "CodePointSet", "FrozenCodePointSet", "LongKey", "InvalidFormat", "NoMemory"]
__all__ += ["InvalidSet", "MutableCodePointSet", "NotATrie", "SameKey", "TooLarge", "Trie", "InvalidTrie"]
__all__ += ["UnitTrie", "UnitTrieCursor", "WideUnit", "WideValue"]
__version__ = _native.version

UnitTrieCursor = _native.UnitTrieCursor


# The repr of a set shows at most so many boundaries.
_SHOWN = 40


def _int(name, given):
    """Return an int. Raises a TypeError that names the argument."""
    try:
        return operator.index(given)
    except TypeError:
        raise TypeError(f"{name}: expected an int, found {type(given).__name__}") from None


def _iter(name, expected, given):
    """Return an iterator. Raises a TypeError that names the argument."""
    try:
        return iter(given)
    except TypeError:
        raise TypeError(f"{name}: expected {expected}, found {type(given).__name__}") from None


def _reduce_ex(self, protocol):
    """Return what copies are made of: the arguments of `__new__`, and the attributes of a subclass."""
    # By itself Python passes no arguments to `__new__` in protocols 0 and 1.
    return object.__reduce_ex__(self, max(protocol, 2))


def _wide_value(rows, default, error, bits):
    """Return the WideValue that names the first value with more bits than these."""
    for name, value in (("default", default), ("error", error)):
        if not 0 <= value < 1 << bits:
            return WideValue(f"{name}: {value} is not an unsigned number of {bits} bits")
    index = next(i for i, row in enumerate(rows) if not 0 <= row[2] < 1 << bits)
    first, last, value = rows[index]
    return WideValue(
        f"rows[{index}], {first:#x}..={last:#x}: {value} is not an unsigned number of {bits} bits"
    )


def _units(key):
    """Return the units of a key, two bytes each: a str in UTF-16, or the items of a list."""
    if isinstance(key, str):
        return key.encode("utf-16-le", "surrogatepass")
    try:
        # An array takes bytes for items of two bytes each.
        units = None if isinstance(key, (bytes, bytearray)) else list(key)
        return array("H", units).tobytes()
    except TypeError:
        raise TypeError(f"key: expected a str or a list of 16-bit units, found {type(key).__name__}") from None
    except OverflowError:
        wrong = next(it for it in units if not 0 <= operator.index(it) <= 0xFFFF)
        raise WideUnit(f"key {reprlib.repr(units)}: {wrong} is not an unsigned number of 16 bits") from None


def _shown(units):
    """Return a key as a message shows it, from the bytes of its units: at most 40 units."""
    start = units[:80].decode("utf-16-le", "surrogatepass")
    return repr(start) + ("..." if len(units) > 80 else "")


class Trie(_native.Trie):
    """A map from code points to unsigned numbers, in the bytes that ICU's `ucptrie_toBinary` writes.

    `Trie(data)` opens the trie at the start of a bytes-like object and ignores what follows it;
    `size` says where it ends. It raises InvalidTrie if there is none.

    `trie[c]` is the value of a code point. It is the trie's error value above 0x10FFFF, and raises
    ValueError for an int outside 0..=0xFFFFFFFF. `trie[start:stop]`, of ints, are the values of a
    range of code points, as `values` returns them.

    Every code point has a value, so `in` and iteration raise TypeError: use `ranges`. Two tries are
    equal if their bytes are the same.
    """

    __slots__ = ("__weakref__",)
    __contains__ = None
    __iter__ = None

    @classmethod
    def build(cls, rows, default=0, error=0, width=None, small=False):
        """Build a trie from rows: a first and a last code point, both inclusive, and a value each.

        A later row overrides an earlier one. A code point in no row has the value `default`, and
        numbers above 0x10FFFF have the value `error`. `width` is the number of bytes per value: 1,
        2 or 4; None means the smallest that all values fit in. A small trie needs less memory, and
        more time per look-up from 0x1000 on.

        Raises WideValue if a value does not fit, InvalidFormat if there is no such width, TooLarge if the
        trie would be too large, and NoMemory.
        """
        rows = _iter("rows", "an iterable of rows", rows)
        rows = [(_native.point(it), _native.point(last), value) for it, last, value in rows]
        numbers = [_int("default", default), _int("error", error)]
        numbers += [_int("the value of a row", row[2]) for row in rows]
        if min(numbers) < 0 or max(numbers) >= 1 << 32:
            raise _wide_value(rows, default, error, 32)
        if width is None:
            width = next(it for it in (1, 2, 4) if max(numbers) >> 8 * it == 0)
        if _int("width", width) not in (1, 2, 4):
            raise InvalidFormat(f"width: expected 1, 2 or 4 bytes, found {width!r}")
        packed = array("I", itertools.chain.from_iterable(rows)).tobytes()
        try:
            return cls(_native.build_trie(packed, default, error, bool(small), width))
        except WideValue:
            raise _wide_value(rows, default, error, 8 * width) from None

    def ranges(self):
        """Yield the ranges of equal values in order: first and last code point, and value."""
        start = 0
        while found := self._ranges(start):
            yield from found
            start = found[-1][1] + 1

    def set_of(self, value):
        """Return the set of the code points with this value."""
        if not 0 <= _int("value", value) < 1 << 32:
            return CodePointSet()
        return CodePointSet._from_bytes(self._set_of(operator.index(value)))

    __reduce_ex__ = _reduce_ex

    def __getnewargs__(self):
        return (self.data,)

    def __repr__(self):
        kind = "fast" if self.is_fast else "small"
        return f"<{type(self).__name__}: {kind}, values of {self.value_bits} bits, {self.size} bytes>"


class CodePointSet(_native.CodePointSet):
    """A set of code points, from its ascending boundaries.

    The set starts at the first boundary, stops before the second, starts again at the third, and so
    on: `CodePointSet([0x41, 0x5B])` is A to Z. Use `from_ranges` and `from_chars` to make a set of
    ranges and of characters. Raises InvalidSet if the numbers are not the boundaries of a set.

    `in` asks for a code point: no other number is in a set. `len` counts the code points, and
    iteration yields them as ints. `|`, `&`, `-`, `^` and `~` make new sets of the left operand's class;
    `<=`, `<`, `>=` and `>` compare as those of Python's sets do. The other operand may be any
    `collections.abc.Set` of code points. A set equals every one that has the same ints.
    """

    __slots__ = ("__weakref__",)

    @classmethod
    def from_ranges(cls, pairs):
        """Make the set of ranges: pairs of a first and a last code point, both inclusive.

        They may be in any order and may overlap. Raises InvalidSet if a first code point is above its
        last one, or if one is outside 0..=0x10FFFF.
        """
        made = CodePointSet._from_ranges(pairs)
        return made if cls is CodePointSet else cls._made_of(made)

    @classmethod
    def from_chars(cls, text):
        """Make the set of the characters of a text, or of any code points.

        These may be any iterable, or integers in a buffer, such as a numpy array. Raises InvalidSet if one is
        outside 0..=0x10FFFF.
        """
        made = CodePointSet._from_points(text)
        return made if cls is CodePointSet else cls._made_of(made)

    @classmethod
    def _made_of(cls, made):
        """Return a CodePointSet as an object of this class."""
        return cls(made.ends)

    def freeze(self):
        """Return the same set as a FrozenCodePointSet, for many look-ups."""
        return FrozenCodePointSet._frozen(self)

    def spans(self, text, start=0):
        """Return an iterator of the spans of `text[start:]`: start, end, and whether they are in the set.

        In turns all characters of a span are in the set, and none is. `text[start:end]` is a span.
        """
        return _native.Spans(self, text, start)

    def issubset(self, other):
        """Return whether another set or iterable has all code points of this set."""
        return self <= self._as_set(other)

    def issuperset(self, other):
        """Return whether this set has all code points of another set or iterable."""
        return self >= self._as_set(other)

    def union(self, *others):
        """Return the set of the code points in this set or in another set or iterable."""
        return functools.reduce(operator.or_, map(self._as_set, others), self)

    def intersection(self, *others):
        """Return the set of the code points in this set and in all other sets or iterables."""
        return functools.reduce(operator.and_, map(self._as_set, others), self)

    def difference(self, *others):
        """Return the set of the code points in this set and in no other set or iterable."""
        return functools.reduce(operator.sub, map(self._as_set, others), self)

    def symmetric_difference(self, other):
        """Return the set of the code points in either this set or another set or iterable."""
        return self ^ self._as_set(other)

    @staticmethod
    def _as_set(other):
        return other if isinstance(other, CodePointSet) else CodePointSet.from_chars(other)

    def ranges(self):
        """Return the ranges of code points in order: a list of first and last ones, inclusive."""
        ends = self.ends
        return [(first, stop - 1) for first, stop in zip(ends[::2], ends[1::2])]

    def __iter__(self):
        ends = self.ends
        return itertools.chain.from_iterable(map(range, ends[::2], ends[1::2]))

    __reduce_ex__ = _reduce_ex

    def __getnewargs__(self):
        return (self.ends,)

    def __repr__(self):
        ends = self.ends
        more = ", ..." if len(ends) > _SHOWN else ""
        return f"{type(self).__name__}([{', '.join(map(hex, ends[:_SHOWN]))}{more}])"


class FrozenCodePointSet(CodePointSet):
    """A CodePointSet with a table of 104 bytes to 148 kB, by which each look-up takes three reads.

    `CodePointSet.freeze` makes it; `FrozenCodePointSet(ends)` does so from boundaries. It equals, and
    has the hash of, the set that it was made of.
    """

    __slots__ = ()

    def __new__(cls, ends=()):
        return cls._frozen(CodePointSet(ends))

    @classmethod
    def _made_of(cls, made):
        return made.freeze() if cls is FrozenCodePointSet else cls(made.ends)

    def freeze(self):
        """Return the set itself."""
        return self

    @property
    def words(self):
        """The table: a read-only memoryview of 64-bit words, as `bks_set_freeze` of the library writes it."""
        return memoryview(self._words).cast("Q")


class UnitTrie(_native.UnitTrie):
    """A map from words to signed numbers, in the units that ICU's `UCharsTrieBuilder` writes.

    `UnitTrie(units)` reads a bytes-like object, two bytes a unit, the lowest first; an odd last byte
    is ignored. The units are not validated: look-ups in any bytes are memory-safe.

    `trie[key]` is the value of a key and raises KeyError if there is none; `key in trie` asks
    whether there is one. A key is a str, which stands for its units in UTF-16, or a list of units.
    Iteration yields the keys as str, in the order of their units, with U+FFFD for a lone surrogate:
    such a str is not a key, or is another one. `len` is the number of entries, which are counted
    once; it raises NotATrie if the units are not a trie, as `bool` and `list` do. Two tries are equal if
    their units are the same, and a trie equals any other mapping with the same entries.
    """

    __slots__ = ("__weakref__",)

    @classmethod
    def build(cls, entries):
        """Build a trie from a dict, or from pairs of a key and a value, in any order.

        A value is a signed number of 32 bits. Raises WideValue if one is not, LongKey if a key has
        more than 65,535 units, SameKey if two entries have the same key, TooLarge if the trie would
        be too large, and NoMemory.
        """
        pairs = entries.items() if hasattr(entries, "items") else entries
        pairs = _iter("entries", "a mapping or an iterable of pairs", pairs)
        pairs = [(_units(key), _int("the value of a key", value)) for key, value in pairs]
        for units, value in pairs:
            if not -(1 << 31) <= value < 1 << 31:
                raise WideValue(f"key {_shown(units)}: {value} is not a signed number of 32 bits")
        sizes = array("Q", [len(units) // 2 for units, _ in pairs]).tobytes()
        values = array("i", [value for _, value in pairs]).tobytes()
        try:
            return cls(_native.build_units(b"".join(units for units, _ in pairs), sizes, values))
        except LongKey:
            units = next(units for units, _ in pairs if len(units) // 2 > 0xFFFF)
            text = f"key {_shown(units)}: {len(units) // 2} units are more than 65,535"
            raise LongKey(text) from None
        except SameKey:
            counts = collections.Counter(units for units, _ in pairs)
            units = next(units for units, count in counts.items() if count > 1)
            raise SameKey(f"key {_shown(units)}: {counts[units]} entries have it") from None

    def keys(self, prefix=""):
        """Return the keys that start with `prefix`, as `items` shows them: a list."""
        return [key for key, _ in self.items(prefix)]

    def values(self, prefix=""):
        """Return the values of the keys that start with `prefix`, in the order of `items`: a list."""
        return [value for _, value in self.items(prefix)]

    def _compared(self, other, is_equal):
        """Return whether a mapping has the same entries, or not; NotImplemented for anything else."""
        if not isinstance(other, collections.abc.Mapping):
            return NotImplemented
        same = len(other) == self.count() and all(
            isinstance(key, str) and key in self and self[key] == value for key, value in other.items()
        )
        # Two keys of a dict may be one key here: a character, and its two surrogates.
        same = same and len(set(map(_units, other))) == len(other)
        return same is bool(is_equal)

    def cursor(self):
        """Return a UnitTrieCursor before the first unit: it follows keys unit by unit."""
        return UnitTrieCursor(self)

    def iter_items(self):
        """Yield the keys with their values in the order of `items`, page by page."""
        # A page also takes time for the entries before it, so the pages grow.
        skipped, most = 0, 16
        while page := self._page(skipped, most):
            yield from page
            skipped, most = skipped + len(page), min(4 * most, 1 << 20)

    def __iter__(self):
        return (key for key, _ in self.iter_items())

    __reduce_ex__ = _reduce_ex

    def __getnewargs__(self):
        return (self.data,)

    def __repr__(self):
        return f"<{type(self).__name__}: {len(self.data) // 2} units>"


# It uses the classes above.
from ._mutable import MutableCodePointSet  # noqa: E402

collections.abc.Set.register(CodePointSet)
collections.abc.Mapping.register(UnitTrie)
