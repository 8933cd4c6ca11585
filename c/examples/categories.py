"""Prints each character of a text with its general category.

    pip install ../../python
    python3 categories.py 'Grüße, 世界!'
"""
import sys

from bekstaudi.categories import NAMES, TRIE


def main():
    if len(sys.argv) != 2:
        sys.exit("usage: categories.py TEXT")
    text = sys.argv[1]
    for character, category in zip(text, TRIE.values(text)):
        print(character, NAMES[category])


main()
