"""The exceptions of this package."""


class BekstaudiError(Exception):
    """The base of all exceptions of this package."""

    def __str__(self) -> str:
        return super().__str__() or self.__doc__ or ""


class InvalidTrie(BekstaudiError, ValueError):
    """The bytes are not a trie. `status` names the first fault, as in enum bks_error."""

    FAULTS = {
        "OK": "there is no fault",
        "SHORT": "they are fewer than the 16 bytes of a header",
        "SIGNATURE": "they do not start with the signature of a trie",
        "SWAPPED": "this is a trie of a big-endian machine",
        "UNKNOWN_TYPE": "the type is neither fast nor small",
        "UNKNOWN_WIDTH": "the values have none of the widths 8, 16 and 32 bits",
        "RESERVED": "a reserved bit is not 0",
        "OTHER_WIDTH": "the values have another width",
        "CUT_OFF": "they are fewer than the index and the data take",
        "CELL": "a cell is not a value",
        "EMPTY_DATA": "the data is empty",
        "NULL_VALUE": "the null value is not a value",
        "SHORT_INDEX": "the index has fewer cells than blocks below the fast limit",
        "SHORT_DATA": "a block below the fast limit ends after the data",
        "UNKNOWN_NUMBER": "a number is unknown",
    }
    NAMES = tuple(FAULTS)

    def __init__(self, status: int) -> None:
        self.status = self.NAMES[status]
        super().__init__(f"the bytes are not a trie: {self.FAULTS[self.status]} ({self.status})")

    def __reduce__(self) -> "tuple[type, tuple[int], dict[str, object]]":
        return type(self), (self.NAMES.index(self.status),), self.__dict__


class NoMemory(BekstaudiError, MemoryError):
    """An allocation failed."""


class InvalidSet(BekstaudiError, ValueError):
    """The boundaries of a set are an even count of ascending numbers up to 0x110000."""


class NotATrie(BekstaudiError, ValueError):
    """The units are not a trie."""


class InvalidFormat(BekstaudiError, ValueError):
    """The values of a trie take 1, 2 or 4 bytes."""


class WideValue(BekstaudiError, ValueError):
    """A value has more bits than the trie has room for."""


class TooLarge(BekstaudiError, ValueError):
    """The trie would be too large."""


class LongKey(BekstaudiError, ValueError):
    """A key has more than 65,535 units."""


class SameKey(BekstaudiError, ValueError):
    """Two entries have the same key."""


class WideUnit(BekstaudiError, ValueError, OverflowError):
    """A unit of a key is not an unsigned number of 16 bits."""
