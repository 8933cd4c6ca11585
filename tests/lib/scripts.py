"""What the scripts of the gate share: the repository's folder, its files, and how a command runs."""
import os
import shutil
import subprocess
import sys

TOP = os.path.dirname(os.path.dirname(os.path.dirname(os.path.realpath(__file__))))
# The programs in C, C++ and Rust that scripts compile, most of them to compare with ICU.
WITH_ICU = f"{TOP}/tests/gate/with_icu"


def read(path):
    with open(path, encoding="utf-8") as file:
        return file.read()


def write(path, text):
    with open(path, "w", encoding="utf-8") as file:
        file.write(text)


def ran(words, **how):
    """A command that has ended, with its output and errors as texts, unless `how` says otherwise."""
    return subprocess.run(words, **{"capture_output": True, "text": True, **how})


def compiled(source, made, *flags):
    """Whether cc compiles a program in C over ICU."""
    return shutil.which("cc") and ran(["cc", "-O1", "-o", made, source, "-licuuc", *flags]).returncode == 0


def asked_ucptrie():
    """The path of ucptrie: the script's argument, or the proved program."""
    return os.path.abspath(sys.argv[1] if len(sys.argv) > 1 else f"{TOP}/crates/ucptrie/out/ucptrie")


def ended(faults, well):
    """Ends the script: prints the faults, a line each, and whether there are none, as the last line."""
    print(*faults, f"FAILED: {len(faults)} faults" if faults else well, sep="\n")
    sys.exit(1 if faults else 0)
