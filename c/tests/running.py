"""How c/tests/run builds the library, and runs what it tries."""
import os
import re
import shutil
import subprocess
import sys

PARTS = os.path.dirname(os.path.realpath(__file__))
sys.path.insert(0, f"{PARTS}/../../tests/lib")
from scripts import TOP, read, write

STRICT = ["-Wall", "-Wextra", "-pedantic", "-Werror", f"-I{TOP}/c"]
SANITIZED = ["-g", "-O1", "-fsanitize=address,undefined", "-fno-sanitize-recover=all"]
CC, CXX = os.environ.get("CC", "cc"), os.environ.get("CXX", "c++")
# Which library is tested: that of the kit, or without it or with --cargo that of cargo.
IS_CARGO = "--cargo" in sys.argv or not shutil.which("rt")
# The two libraries are tested side by side, and beside python/tests/run, which builds into c/out.
OUT = f"{TOP}/c/out/{'by_cargo' if IS_CARGO else 'by_kit'}"
BUILD = [f"{TOP}/c/build", "--cargo" if IS_CARGO else "--proved", "--out", OUT]


def functions():
    """The functions that bekstaudi.h declares, without the inline ones."""
    return re.findall(r"(?m)^(?!static)[a-z]\w* (bks_\w+)\(", read(f"{TOP}/c/bekstaudi.h"))


def passes(what, words, **more):
    """Whether a command succeeds. Prints what it was; if it fails, also what it printed."""
    ran = subprocess.run(words, stdout=subprocess.PIPE, stderr=subprocess.STDOUT, text=True, errors="replace", **more)
    good = f"{what}: {ran.stdout.strip() or 'done'}"
    # In one piece, since others print at the same time.
    print(f"{ran.stdout.rstrip()}\n{what}: FAILED\n" if ran.returncode else f"{good}\n", end="", flush=True)
    return ran.returncode == 0


def prints(what, words, wanted, environment, given=""):
    """Whether a program that gets this text on standard input prints what is wanted."""
    ran = subprocess.run(words, input=given.encode("utf-8"), stdout=subprocess.PIPE, env=environment)
    found = ran.stdout.decode("utf-8")
    print(f"{what}: {'as wanted' if found == wanted else found}")
    return found == wanted
