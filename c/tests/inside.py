"""What c/tests/run tries with cargo's library alone: the tests over a library whose own code is checked
while it runs, and a comparison with the proved library."""
import os
import shutil
import subprocess

from running import CC, OUT, PARTS, STRICT, TOP, functions, passes

CHECKS = "-C overflow-checks -C debug-assertions"
# How many turns a comparison takes: 20,000 are some 8 million results, and 10 seconds.
TURNS = os.environ.get("ALIKE_TURNS", "20000")
TARGET = "x86_64-unknown-linux-gnu"


def library_with(room, name, flags, nightly=False):
    """Builds the static library of rust/bekstaudi-c with these flags for rustc: its path, or none."""
    words = ["cargo", *(["+nightly"] if nightly else []), "rustc", "-q", "--release", "--offline"]
    words += ["--manifest-path", f"{TOP}/rust/bekstaudi-c/Cargo.toml", "--crate-type", "staticlib"]
    words += ["--target", TARGET, "--target-dir", f"{room}/{name}"]
    built = passes(f"cargo, {name}", words, env={**os.environ, "RUSTFLAGS": flags})
    return f"{room}/{name}/{TARGET}/release/libbekstaudi.a" if built else ""


def has_nightly():
    """Whether a nightly rustc is there, which alone takes -Z."""
    words = ["cargo", "+nightly", "--version"]
    return shutil.which("rustup") and subprocess.run(words, capture_output=True).returncode == 0


def checked_libraries(room):
    """The libraries with checks inside, each with its name and what a C compiler needs for it."""
    yield "overflow checks", library_with(room, "checked", CHECKS), ["-O2"]
    if has_nightly() and shutil.which("clang"):
        library = library_with(room, "sanitized_inside", f"-Zsanitizer=address {CHECKS}", nightly=True)
        yield "AddressSanitizer", library, ["-g", "-O1", "-fsanitize=address"]
    else:
        print("AddressSanitizer is not tried inside the library: no nightly cargo, or no clang")


def alike(room):
    """Compares the library with the one of the other way: each function, on the same arguments, valid
    and damaged."""
    built = f"{room}/alike"
    calls = "-DCALLS=" + " ".join(f"X({it})" for it in functions())
    strict = [it for it in STRICT if it != "-pedantic"]
    yield passes("alike.c", [CC, "-std=gnu11", "-O1", *strict, calls, "-o", built, f"{PARTS}/alike.c", "-ldl"])
    other = f"{room}/other"
    yield passes("c/build --cargo --out", [f"{TOP}/c/build", "--cargo", "--out", other])
    files = sorted(os.listdir(f"{room}/tries"))
    tries, units = ([it for it in files if it.endswith(end)] for end in (".bin", ".units"))
    if not units:
        print("the libraries are not compared: no unit tries without ICU4C")
        return
    words = [built, f"{OUT}/libbekstaudi.so", f"{other}/libbekstaudi.so", TURNS, *tries, "--", *units]
    yield os.path.exists(built) and passes("alike", words, cwd=f"{room}/tries")
