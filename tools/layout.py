"""What is installed, and where: the one list for tools/install, tools/package and tools/check."""
import os
import re
import shutil
import subprocess
import sys

TOP = os.path.dirname(os.path.dirname(os.path.abspath(__file__)))

# The commands: each is built from the crate of its name, and has a page in man/ and its words in completions/. A new one is added here.
COMMANDS = ("lucid", "lucid_explain", "lucid_show")

# The scripts that are installed as commands, each under its name there.
SCRIPTS = {"lucid_exercise": "tools/exercise"}

# The folder of pages and examples below the prefix, laid out as the repository is.
PAGES = "share/doc/lucid"

NEEDS_PROOF = "`rt run` proves all that it builds first, which takes up to half an hour on four processors"


def fail(why):
    """Ends the tool with a line that says why."""
    sys.exit(f"{os.path.basename(sys.argv[0])}: {why}")


def read(path):
    with open(os.path.join(TOP, path), "rb") as it:
        return it.read()


def version():
    return read("VERSION").decode().strip()


def built(name, folder=None):
    """The file of a built command: of the folder, or as LLVM built it in its crate, else as Rattle's own compiler did; or none."""
    out = os.path.join(TOP, "crates", name, "out")
    files = [os.path.join(folder, name)] if folder else [os.path.join(out, it) for it in (name, f"{name}.by-rattle")]
    return next((it for it in files if os.path.isfile(it)), None)


def build(name):
    """Builds a command by the kit, and returns its file."""
    if shutil.which("rt") is None:
        fail(f"{name} isn't built, and `rt`, the kit that builds it, isn't there; an archive made by tools/package needs no kit")
    print(f"{name} isn't built yet. {NEEDS_PROOF}.", flush=True)
    ran = subprocess.run(["rt", "run", "--", "--count", "1", "data/p"], cwd=os.path.join(TOP, "crates", name), check=False)
    return built(name) or fail(f"`rt run` in crates/{name} ended with status {ran.returncode}, and {name} isn't built")


def commands(folder=None):
    """The files of the built commands by name. What isn't built is built, or with a folder missed there."""
    found = {it: built(it, folder) for it in COMMANDS}
    lacking = [it for it in COMMANDS if found[it] is None]
    if folder and lacking:
        fail(f"{folder} has no {lacking[0]}")
    return {it: found[it] or build(it) for it in COMMANDS}


def below(folder):
    """The files below a folder of the repository, in order, without what tools leave there."""
    for at, folders, files in os.walk(os.path.join(TOP, folder)):
        folders[:] = sorted(it for it in folders if it != "__pycache__")
        yield from (os.path.relpath(os.path.join(at, it), TOP) for it in sorted(files))


def sources():
    """Each file of the repository that is installed, with its places below the prefix."""
    for name in sorted(os.listdir(os.path.join(TOP, "man"))):
        yield f"man/{name}", [f"share/man/man1/{name}"]
    yield "completions/lucid.bash", [f"share/bash-completion/completions/{it}" for it in COMMANDS]
    yield "completions/_lucid", ["share/zsh/site-functions/_lucid"]
    for name in COMMANDS:
        yield f"completions/{name}.fish", [f"share/fish/vendor_completions.d/{name}.fish"]
    for path in below("editors/vim"):
        yield path, [path.replace("editors/vim", "share/vim/vimfiles", 1)]
    for path in below("editors/textmate"):
        yield path, [path.replace("editors", "share/lucid", 1)]
    for path in ("README.md", "CHANGELOG.md", "VERSION", *below("docs"), *below("examples")):
        yield path, [f"{PAGES}/{path}"]


def tree(folder=None):
    """All that is installed: for each path below the prefix its bytes and its mode."""
    found = {f"bin/{name}": (read(file), 0o755) for name, file in commands(folder).items()}
    found |= {f"bin/{name}": (read(file), 0o755) for name, file in SCRIPTS.items()}
    for path, places in sources():
        found |= {it: (read(path), 0o644) for it in places}
    return dict(sorted(found.items()))


def needed_glibc(files):
    """The version of the GNU C library that the commands need: the highest that a symbol of theirs asks for."""
    names = {it for data, mode in files.values() if data.startswith(b"\x7fELF") for it in re.findall(rb"\0GLIBC_([0-9.]+)(?=\0)", data)}
    return max((it.decode() for it in names), key=lambda it: [int(part) for part in it.split(".")], default="none")


def installer(files):
    """The script that installs what lies beside it, for these files."""
    return read("tools/install.sh").replace(b"@GLIBC@", needed_glibc(files).encode()).replace(b"@VERSION@", version().encode())


def put(folder, files):
    """Writes files into a folder, with their modes."""
    for path, (data, mode) in files.items():
        path = os.path.join(folder, path)
        os.makedirs(os.path.dirname(path), exist_ok=True)
        with open(path, "wb") as out:
            out.write(data)
        os.chmod(path, mode)
