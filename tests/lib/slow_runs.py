"""What ucptrie says of its progress, for tests/gate/command_lines.

A command that takes two seconds or more says on standard error what it has read and made, if that is a
terminal. Otherwise it says nothing."""
import os
import pty
import subprocess
import time
from concurrent.futures import ThreadPoolExecutor

# After so many seconds a command is slow.
SLOW = 2.0
# How long the slow commands of this test wait for their input.
SECONDS = 2.2
INPUT = b"41;1\n"


def said_in(controller):
    """What was written to a terminal that nobody writes to any more."""
    found = b""
    while True:
        try:
            part = os.read(controller, 4096)
        except OSError:
            return found
        if not part:
            return found
        found += part


def slow_run(words, seconds, has_terminal):
    """Gives a program its input after some seconds. Returns the output, the standard error and whether the
    program may have been slow on its own, on a busy machine."""
    begun = time.monotonic()
    controller, terminal = pty.openpty()
    error = terminal if has_terminal else subprocess.PIPE
    made = subprocess.Popen(words, stdin=subprocess.PIPE, stdout=subprocess.PIPE, stderr=error)
    os.close(terminal)
    time.sleep(seconds)
    output, said = made.communicate(INPUT, timeout=600)
    said = said_in(controller).replace(b"\r\n", b"\n") if has_terminal else said
    os.close(controller)
    return output, said, time.monotonic() - begun >= SLOW


def progress_faults(program):
    """What a slow and a quick run say otherwise than they should: a line for each."""
    words = [*program, "build", "--as", "json"]
    cases = [(SECONDS, True), (SECONDS, False), (0, True)]
    with ThreadPoolExecutor(len(cases)) as pool:
        ends = list(pool.map(lambda it: slow_run(words, *it), cases))
    for (seconds, has_terminal), (output, said, is_slow) in zip(cases, ends):
        steps = f"ucptrie: read {len(INPUT)} bytes\nucptrie: made {len(output)} bytes\n".encode()
        wanted = steps if seconds and has_terminal else b""
        may_say = {wanted, steps} if is_slow and has_terminal else {wanted}
        if said not in may_say or not output:
            where = "a terminal" if has_terminal else "a pipe"
            yield f"{' '.join(words[-3:])}, {seconds} seconds, {where}: said {said}, expected {wanted}"
