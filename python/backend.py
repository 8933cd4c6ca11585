"""Builds the wheel of this folder, for pip (PEP 517 and 660): the module in C is compiled over the static
library that c/build makes, and is packed with the Python files.

The wheel has the module twice: once for every CPython from 3.9 on, and once for the version that runs
this, which prefers it (native/shared.h says what it gains).

It needs only the standard library, a C compiler (CC, or cc) and Python's headers: with setuptools,
pip could not install this folder without a network on a Python that lacks setuptools or wheel. The
same sources make the same wheel, byte for byte. SOURCE_DATE_EPOCH is the time of its files.
"""
import base64
import hashlib
import os
import pathlib
import shlex
import subprocess
import sysconfig
import tempfile
import time
import zipfile

HERE = pathlib.Path(__file__).resolve().parent
C = HERE.parent / "c"
LIBRARY = C / "out/libbekstaudi.a"
MADE_BY = C / "out/made-by"
# The limited API of CPython 3.9 is what the sources ask for (native/shared.h).
TAG = "cp39-abi3-linux_x86_64"


def _version():
    """Return the version of the repository."""
    version = HERE.parent / "VERSION"
    if not version.exists():
        raise SystemExit("bekstaudi: no VERSION above this folder: install it inside the repository, by pip 21.3 or later")
    return version.read_text(encoding="utf-8").strip()


def _compiled(folder):
    """Compile the modules into a folder. Return their paths."""
    if not LIBRARY.exists():
        subprocess.run([C / "build"], check=True, stdout=subprocess.DEVNULL)
    headers = sysconfig.get_path("include")
    if not os.path.exists(f"{headers}/Python.h"):
        raise SystemExit(f"bekstaudi: no Python.h in {headers}: install Python's headers (python3-dev)")
    words = [*shlex.split(os.environ.get("CC", "cc")), "-std=c11", "-O2", "-fPIC", "-Wall", "-Wextra"]
    words += ["-fvisibility=hidden", f'-DBEKSTAUDI_VERSION="{_version()}"', f"-I{headers}", f"-I{C}", "-I.", "-shared", "-s"]
    # The proved library is built for x86-64-v2, cargo's for every x86-64.
    words += ["-DBEKSTAUDI_NEEDS_SSE4_2"] if MADE_BY.read_text().startswith("proved") else []
    words += ["-Wl,--exclude-libs,ALL", "-Wl,--gc-sections"]
    sources = sorted(it.name for it in (HERE / "native").glob("*.c"))
    every, own = folder / "_native.abi3.so", folder / f"_native{sysconfig.get_config_var('EXT_SUFFIX')}"
    for module, more in ((every, []), (own, ["-DBEKSTAUDI_ONE_VERSION"])):
        subprocess.run([*words, *more, "-o", module, *sources, LIBRARY], check=True, cwd=HERE / "native")
    return [every, own]


def _metadata():
    """Return the text of METADATA."""
    fields = {
        "Metadata-Version": "2.1",
        "Name": "bekstaudi",
        "Version": _version(),
        "Summary": "Code point tries, sets of code points and unit tries, over a proved library",
        "License": "Unicode-3.0",
        "Requires-Python": ">=3.9",
        "Description-Content-Type": "text/markdown",
    }
    head = "".join(f"{name}: {value}\n" for name, value in fields.items())
    return f"{head}\n{(HERE / 'README.md').read_text(encoding='utf-8')}"


def _package(modules):
    """Return the content of each file of the package, by its name."""
    files = {f"bekstaudi/{it.name}": it.read_bytes() for it in modules}
    for path in sorted((HERE / "src/bekstaudi").glob("*.py*")):
        if path.is_file():
            files[f"bekstaudi/{path.name}"] = path.read_bytes()
    files["bekstaudi/py.typed"] = b""
    return files


def _described(files):
    """Add to the files of a wheel those that describe it."""
    info = f"bekstaudi-{_version()}.dist-info"
    wheel = f"Wheel-Version: 1.0\nGenerator: bekstaudi\nRoot-Is-Purelib: false\nTag: {TAG}\n"
    files[f"{info}/LICENSE"] = (HERE.parent / "LICENSE").read_bytes()
    files[f"{info}/METADATA"] = _metadata().encode()
    files[f"{info}/WHEEL"] = wheel.encode()
    record = ""
    for name, content in files.items():
        digest = base64.urlsafe_b64encode(hashlib.sha256(content).digest()).rstrip(b"=").decode()
        record += f"{name},sha256={digest},{len(content)}\n"
    files[f"{info}/RECORD"] = f"{record}{info}/RECORD,,\n".encode()
    return files


def _pack(folder, files):
    """Write a wheel whose bytes depend only on the files and on SOURCE_DATE_EPOCH. Return its name."""
    name = f"bekstaudi-{_version()}-{TAG}.whl"
    # A zip archive has no time before 1980.
    moment = max(int(os.environ.get("SOURCE_DATE_EPOCH", 315532800)), 315532800)
    with zipfile.ZipFile(os.path.join(folder, name), "w") as wheel:
        for path, content in _described(files).items():
            entry = zipfile.ZipInfo(path, time.gmtime(moment)[:6])
            entry.compress_type = zipfile.ZIP_DEFLATED
            entry.external_attr = (0o100755 if path.endswith(".so") else 0o100644) << 16
            entry.create_system = 3
            wheel.writestr(entry, content)
    return name


def build_wheel(wheel_directory, config_settings=None, metadata_directory=None):
    """Build the wheel (the hook of PEP 517). Return its name."""
    with tempfile.TemporaryDirectory(prefix="bekstaudi-") as folder:
        return _pack(wheel_directory, _package(_compiled(pathlib.Path(folder))))


def build_editable(wheel_directory, config_settings=None, metadata_directory=None):
    """Build a wheel that refers to the sources (the hook of PEP 660). Return its name.

    The modules are compiled into src/bekstaudi, beside the Python files.
    """
    _compiled(HERE / "src/bekstaudi")
    return _pack(wheel_directory, {"bekstaudi.pth": f"{HERE / 'src'}\n".encode()})


def build_sdist(sdist_directory, config_settings=None):
    """Refuse: the sources are the repository (the hook of PEP 517)."""
    raise SystemExit("bekstaudi: there is no source distribution: the sources are the repository")
