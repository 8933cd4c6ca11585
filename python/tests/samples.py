"""The tries that the tests read. They are in the folder that the variable TRIES names: NAME.bin with
NAME.runs.txt, of lines HEX..HEX;N and HEX;N; and, if ICU wrote them, names.units with
names.keys.txt, of lines KEY;N."""
import copy
import glob
import os
import pickle

FOLDER = os.environ["TRIES"]
NAMES = sorted(os.path.basename(it)[:-4] for it in glob.glob(f"{FOLDER}/*.bin"))


def read(name):
    """Return the bytes of a trie."""
    with open(f"{FOLDER}/{name}.bin", "rb") as file:
        return file.read()


def runs_of(name):
    """Yield the runs beside it: first, last and value."""
    with open(f"{FOLDER}/{name}.runs.txt", encoding="utf-8") as file:
        for line in file:
            points, value = line.split(";")
            first, _, last = points.partition("..")
            yield int(first, 16), int(last or first, 16), int(value)


def copies(value):
    """Yield a value copied in each way that Python has."""
    yield from (copy.copy(value), copy.deepcopy(value))
    yield from (pickle.loads(pickle.dumps(value, it)) for it in range(pickle.HIGHEST_PROTOCOL + 1))
