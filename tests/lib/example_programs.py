"""What the example programs are run on, for the tests of each language."""
import os
import subprocess

from scripts import read, write

UNICODE = "/usr/share/unicode"
WORDS = "/usr/share/dict/words"
FEW = "the cat category categories of a car cart Ångström süß 世界 😀".split()


def has_unicode_data(name):
    """Whether Debian's unicode-data is installed. If not, prints a line that says which example needs it."""
    there = os.path.exists(f"{UNICODE}/auxiliary/GraphemeBreakTest.txt")
    if not there:
        print(f"{name} is not tested: no unicode-data")
    return there


def write_breaks(path):
    """Writes the classes of characters for grapheme clusters, as the examples say."""
    emoji = [it for it in read(f"{UNICODE}/emoji/emoji-data.txt").split("\n") if "Extended_Pictographic" in it]
    write(path, read(f"{UNICODE}/auxiliary/GraphemeBreakProperty.txt") + "".join(f"{it}\n" for it in emoji))


def clusters():
    """The texts of GraphemeBreakTest.txt, each as its clusters."""
    found = read(f"{UNICODE}/auxiliary/GraphemeBreakTest.txt")
    lines = [it.partition("#")[0].strip() for it in found.split("\n")]
    parts = [[it.replace("×", "").split() for it in line.split("÷") if it.strip()] for line in lines if line]
    return [["".join(chr(int(it, 16)) for it in part) for part in line] for line in parts]


def words():
    """A list of words with numbers: every tenth one of Debian's list, if it is there, and a few."""
    found = read(WORDS).split()[::10] if os.path.exists(WORDS) else []
    return {word: number for number, word in enumerate(dict.fromkeys([*FEW, *found]), 1)}


def write_words(program, list_path, path):
    """Has ucptrie write the unit trie of the words: whether it did."""
    write(list_path, "".join(f"{word};{number}\n" for word, number in words().items()))
    return subprocess.run([program, "words", list_path, "--as", "icu", "-o", path]).returncode == 0


def text():
    """A text of these words without spaces, and of characters that start no word."""
    found = list(words())
    return "".join(f"{found[7919 * k % len(found)]}{'' if k % 5 else '!ü語'}" for k in range(2000))


def pieces():
    """What dictionary prints for the text: at each position the longest word, found in a dict of Python."""
    numbers, rest, start, lines = words(), text(), 0, []
    longest = max(map(len, numbers))
    while start < len(rest):
        fits = (rest[start : start + size] for size in range(longest, 0, -1))
        word = next((it for it in fits if it in numbers), None)
        lines.append(rest[start] if word is None else f"{word} {numbers[word]}")
        start += len(word or rest[start])
    return "".join(f"{it}\n" for it in lines)
