"""What c/build installs and removes, and its end if it is interrupted."""
import os
import shlex
import shutil
import signal
import subprocess
import time

from running import BUILD, CC, PARTS, TOP, passes, read, write

# A project that finds the library as CMake does.
PROJECT = f"{PARTS}/installed"
# A compiler that waits: what c/build has started when the signal arrives.
WAITING = """#!/bin/sh
echo $$ >"{room}/started"
sleep 600
"""


def version():
    return read(f"{TOP}/VERSION").strip()


def by_cmake(room, prefix):
    """A project in C finds the library by CMake; one that asks for a later version is rejected."""
    if not shutil.which("cmake"):
        print("CMake is not tried: no cmake on PATH")
        return
    for wanted, is_found in ((version(), True), (version().rpartition(".")[0], True), ("", True), ("99.0", False)):
        shutil.rmtree(f"{room}/made", ignore_errors=True)
        options = {"WANTED": wanted, "CMAKE_PREFIX_PATH": prefix, "CMAKE_C_COMPILER": CC}
        words = ["cmake", "-S", PROJECT, "-B", f"{room}/made", *(f"-D{name}={it}" for name, it in options.items())]
        ran = subprocess.run(words, stdout=subprocess.PIPE, stderr=subprocess.STDOUT, text=True)
        print(f"find_package(bekstaudi {wanted}): {'found' if ran.returncode == 0 else 'rejected'}")
        if (ran.returncode == 0) != is_found:
            print(f"{ran.stdout}\nFAILED")
        yield (ran.returncode == 0) == is_found
        if is_found and wanted == version():
            yield passes("cmake --build", ["cmake", "--build", f"{room}/made"])
            for kind in ("bekstaudi", "static"):
                yield passes(f"by {kind}", [f"{room}/made/by_{kind}"])


def running(session):
    """The processes of a session that still run."""
    words = ["ps", "-o", "stat=", "-g", str(session)]
    return [it for it in subprocess.run(words, stdout=subprocess.PIPE, text=True).stdout.split() if it[0] != "Z"]


def ends(room, name):
    """c/build that is interrupted leaves nothing running."""
    os.makedirs(f"{room}/waiting", exist_ok=True)
    if os.path.exists(f"{room}/started"):
        os.remove(f"{room}/started")
    write(f"{room}/waiting/cargo", WAITING.format(room=room))
    os.chmod(f"{room}/waiting/cargo", 0o755)
    where = {**os.environ, "PATH": f"{room}/waiting:{os.environ['PATH']}"}
    words = [BUILD[0], "--cargo", "--out", f"{room}/never"]
    # A shell does not set a trap for a signal that was ignored when it began.
    begun = subprocess.Popen(words, env=where, preexec_fn=lambda: signal.signal(signal.SIGINT, signal.SIG_DFL))
    until = time.monotonic() + 600
    while not os.path.exists(f"{room}/started") or not os.path.getsize(f"{room}/started"):
        if time.monotonic() > until:
            print("c/build did not start cargo: FAILED")
            return False
        time.sleep(0.05)
    child = int(read(f"{room}/started"))
    begun.send_signal(getattr(signal, name))
    status = begun.wait(600)
    while (left := running(child)) and time.monotonic() < until:
        time.sleep(0.05)
    print(f"c/build at {name}: status {status}, {len(left)} left")
    return not left and status == {"SIGINT": 130, "SIGTERM": 143}[name]


def by_pkg_config(room, prefix):
    """A program in C is built by what pkg-config says."""
    if not shutil.which("pkg-config"):
        print("pkg-config is not tried: none on PATH")
        return
    known = {**os.environ, "PKG_CONFIG_PATH": f"{prefix}/lib/pkgconfig"}
    ran = subprocess.run(["pkg-config", "--cflags", "--libs", "bekstaudi"], env=known, stdout=subprocess.PIPE, text=True)
    words = [CC, f"{PROJECT}/main.c", *shlex.split(ran.stdout), f"-Wl,-rpath,{prefix}/lib", "-o", f"{room}/main"]
    yield passes("by pkg-config", words)
    yield passes("by pkg-config", [f"{room}/main"])


def removing(room, prefix):
    """What is installed is removed, and nothing else is. Words that are no options install nothing."""
    write(f"{prefix}/lib/other", "")
    yield passes("c/build --uninstall", [BUILD[0], "--uninstall", prefix])
    left = [it for _, _, names in os.walk(prefix) for it in names]
    print(f"left: {left}")
    yield left == ["other"]
    for words, status in ((["--uninstall", prefix], 70), (["--uninstall"], 70), (["uninstall"], 70), (["--help"], 0)):
        ran = subprocess.run([BUILD[0], *words], cwd=room, capture_output=True, text=True)
        well = ran.returncode == status and not os.path.exists(f"{room}/{words[0]}")
        print(f"c/build {words[0]}: {'as expected' if well else f'{ran.returncode}, {ran.stderr}'}")
        yield well


def installing(room):
    """c/build with a relative PREFIX with a space, and the files that pkg-config and CMake read."""
    os.makedirs(f"{room}/below", exist_ok=True)
    yield passes("c/build with a relative PREFIX", [*BUILD, "relative one"], cwd=f"{room}/below")
    prefix = f"{room}/below/relative one"
    yield from by_pkg_config(room, prefix)
    yield from by_cmake(room, prefix)
    yield from removing(room, prefix)
    yield ends(room, "SIGTERM")
    yield ends(room, "SIGINT")
