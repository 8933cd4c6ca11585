"""Sets of code points and strings, such as sequences of emoji.

    >>> from bekstaudi.text_sets import TextSet
    >>> hands = TextSet(["a", "ab", "\N{WAVING HAND SIGN}", "\N{WAVING HAND SIGN}\N{EMOJI MODIFIER FITZPATRICK TYPE-6}"])
    >>> "ab" in hands, "b" in hands, hands.longest("abc")
    (True, False, 'ab')
    >>> hands.longest("a\N{WAVING HAND SIGN}\N{EMOJI MODIFIER FITZPATRICK TYPE-6}!", 1) in hands
    True
"""
import collections.abc

from . import CodePointSet, UnitTrie

__all__ = ["TextSet"]


class TextSet(collections.abc.Set):
    """A set of strings (ICU: `UnicodeSet`). Those of one character are stored as a set of code points.

    `TextSet(members)` contains the given strings. `TextSet(members, code_points)` also contains each
    character of a CodePointSet. The elements are all str: first the characters in order, then the
    strings in the order of their UTF-16 units. The set never changes, and it has the operators of
    frozenset.
    """

    def __init__(self, members=(), code_points=()):
        members = set(members)
        for member in members:
            if not isinstance(member, str):
                raise TypeError(f"members: expected str, found {type(member).__name__}")
        self._code_points = CodePointSet.from_chars(it for it in members if len(it) == 1).union(code_points)
        self._strings = UnitTrie.build((it, 0) for it in members if len(it) != 1)

    @property
    def code_points(self):
        """The members of one character: a CodePointSet."""
        return self._code_points

    @property
    def strings(self):
        """The other members, the empty string included: a UnitTrie, whose values are 0."""
        return self._strings

    def __contains__(self, text):
        if not isinstance(text, str):
            return False
        return text in (self._code_points if len(text) == 1 else self._strings)

    def __iter__(self):
        yield from map(chr, self._code_points)
        yield from self._strings.keys()

    def __len__(self):
        return len(self._code_points) + len(self._strings)

    def longest(self, text, start=0):
        """Return the longest member that `text[start:]` starts with, or '' if there is none."""
        found = self._strings.longest(text, start)
        if found and found[0]:
            return found[0]
        first = slice(start, None).indices(len(text))[0]
        first = text[first : first + 1]
        return first if first and first in self._code_points else ""

    def span(self, text, held=True, start=0):
        """Return the end of the span that starts at `start`.

        It goes on by the longest member at each position or, if not `held`, by one character at each
        position, until a member starts there.
        """
        end = slice(start, None).indices(len(text))[0]
        while end < len(text):
            size = len(self.longest(text, end))
            if bool(size) != bool(held):
                break
            end += size or 1
        return end

    __hash__ = collections.abc.Set._hash

    def __repr__(self):
        return f"TextSet({list(self._strings)!r}, {self._code_points!r})"
