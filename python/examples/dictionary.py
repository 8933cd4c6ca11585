"""Cuts a text without spaces into words: at each position, the longest word of a list.

    ./ucptrie words LIST --as icu -o words.icu     (LIST has lines WORD;NUMBER)
    echo thecategories | python3 dictionary.py words.icu
"""
import sys

from bekstaudi import UnitTrie


def pieces(words, text):
    """The words of a text and their numbers. A character with which no word starts is a piece of its
    own, without a number."""
    start = 0
    while start < len(text):
        word, number = words.longest(text, start) or ("", None)
        if not word:
            word, number = text[start], None
        yield word, number
        start += len(word)


def main():
    if len(sys.argv) != 2:
        sys.exit("usage: dictionary.py WORDS.icu < TEXT")
    with open(sys.argv[1], "rb") as file:
        words = UnitTrie(file.read())
    for word, number in pieces(words, sys.stdin.buffer.read().decode()):
        sys.stdout.buffer.write((word if number is None else f"{word} {number}").encode() + b"\n")


main()
