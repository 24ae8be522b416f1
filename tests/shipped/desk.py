"""The manual page, the completions and the colours for editors: each loads, where the tool that reads it is there.

The checks of tests/editors run from the top of the repository, and say nothing and end with status 0 where all is right.
"""
import os
import shutil
import subprocess
import sys

from harness import Case, Skipped, check, shown

TOOLS = {".sh": "bash", ".fish": "fish", ".zsh": "zsh", ".py": sys.executable}


def silent(folder, call):
    """Runs words in a folder; they must say nothing and end with status 0."""
    ran = subprocess.run(call, cwd=folder, capture_output=True, timeout=60, check=False, stdin=subprocess.DEVNULL)
    check(ran.returncode == 0 and not ran.stdout + ran.stderr, f"status {ran.returncode}: {shown(ran.stdout + ran.stderr)}")


def editor(name):
    def work(run):
        stem, ending = os.path.splitext(name)
        tools = [TOOLS[ending], *(["vim"] if stem == "vim" else [])]
        lacking = [it for it in tools if shutil.which(it) is None]
        if lacking:
            raise Skipped(lacking[0])
        silent(run.top, [TOOLS[ending], *(["-f"] if ending == ".zsh" else []), f"tests/editors/{name}"])
    return Case(f"tests/editors/{name}", work)


def manual(name):
    def work(run):
        if shutil.which("mandoc") is None:
            raise Skipped("mandoc")
        silent(os.path.join(run.top, "man"), ["mandoc", "-T", "lint", name])
    return Case(f"man/{name}", work)


def inside(top, folder, endings):
    path = os.path.join(top, folder)
    return sorted(it for it in os.listdir(path) if it.endswith(endings)) if os.path.isdir(path) else []


def cases(top):
    editors = [editor(it) for it in inside(top, "tests/editors", tuple(TOOLS))]
    return editors + [manual(it) for it in inside(top, "man", (".1",))]
