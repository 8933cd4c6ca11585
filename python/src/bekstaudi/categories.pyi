from bekstaudi import Trie

__all__ = ["NAMES", "TRIE", "UNICODE_VERSION"]
NAMES: tuple[str, ...]
TRIE: Trie
UNICODE_VERSION: str
