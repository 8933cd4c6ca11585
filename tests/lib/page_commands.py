"""The commands that a page shows in blocks that start with `$ `, each with what it prints below it. A line that
starts with `> `, or comes after a backslash, is part of the command. A block below a text that ends with a path, as
`src/main.rs`:, is the file of that name."""
import glob
import os
import re
import shutil
import subprocess
import sysconfig

BLOCK = re.compile(r"(?ms)^```\n(\$ .*?)^```$|`([\w./]+)`:\n\n```\w+\n(.*?)^```$")
COMMAND = re.compile(r"(?m)^\$ (.*(?:(?<=\\)\n.*|\n> .*)*)\n((?:(?!\$ ).*\n)*)")
MARK = "-- what a command printed ends here --"
# What commands need beside what each machine has, and how they name it.
NEEDS = {
    "cargo": r"\bcargo\b|\./ucptab|\./ucptrie|\./python",
    "clap": r"\./ucptrie",
    "cc": r"(?<![\w./-])cc |c/build|\./python",
    "Python.h": r"\./python",
    "pkg-config": r"pkg-config",
    "rt": r"(?<![\w./-])rt |wrong_bodies ",
    "rt ci with names": r"rt ci ",
}
# Where these are, of what is no program: Debian's packages for cargo, or what it has downloaded.
FILES = {
    "clap": ["/usr/share/cargo/registry/clap-*", os.path.expanduser("~/.cargo/registry/src/*/clap-4*")],
    "Python.h": [f"{sysconfig.get_path('include')}/Python.h"],
}


def commands_of(text):
    """The commands of a text, each with what it is to print."""
    for commands, path, file in BLOCK.findall(text):
        if path:
            yield f"mkdir -p $(dirname {path}) && cat >{path} <<'END'\n{file}END", ""
        for command, wanted in COMMAND.findall(commands):
            yield re.sub("(?m)^> ", "", command), wanted


def lacking(command, environment):
    """What a command needs and is not installed, or None."""
    def has(it):
        if it == "rt ci with names":
            # Kit 13b would prove all crates below again, and where CI is true rt refuses names.
            kit = subprocess.run(["rt", "version"], capture_output=True, text=True).stdout
            return "13b" not in kit and environment.get("CI") != "true"
        return any(map(glob.glob, FILES[it])) if it in FILES else shutil.which(it, path=environment["PATH"])

    return next((it for it, form in NEEDS.items() if re.search(form, command) and not has(it)), None)


def page_faults(page, text, folder, environment, is_silent=False):
    """What the commands of a page do otherwise than it says, one after another in one shell, which starts in a
    folder. With is_silent they must say nothing on standard error. Of each section those from the first one on that
    needs what is not installed are left out."""
    commands = []
    for section in re.split(r"(?m)^## ", text):
        for command, wanted in commands_of(section):
            if lack := lacking(command, environment):
                print(f"{page}: no {lack}: not tried: {command}, and what follows it in its section")
                break
            commands.append((command, wanted))
    script = "".join(f"{command}\necho '{MARK}' $?\n" for command, _ in commands)
    how = {"cwd": folder, "env": environment, "stdin": subprocess.DEVNULL, "capture_output": True}
    ran = subprocess.run(["bash", "-c", script], text=True, errors="replace", **how)
    printed = re.findall(rf"(.*?){MARK} (\d+)\n", ran.stdout, re.S)
    printed += [("", "none: the shell ended")] * (len(commands) - len(printed))
    for (command, wanted), (found, status) in zip(commands, printed):
        if (found, status) != (wanted, "0"):
            yield f"{page}: $ {command}\n{found}status {status}, where the page has\n{wanted}{ran.stderr[-2000:]}"
    if is_silent and ran.stderr:
        yield f"{page}: its commands say {ran.stderr[-2000:]}"
    print(f"{page}: {len(commands)} commands", flush=True)
