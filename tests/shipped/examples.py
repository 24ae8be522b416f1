"""The programs of examples/: what the mathematics says is what is kept beside them, and what the command writes.

NAME.lucid is a program and NAME.args the command's words, one a line, `{}` standing for its file; without such a file the program
alone. expected/NAME.out has the wanted lines, which expected/NAME.py prints, expected/NAME.status the wanted status where it isn't
0, and expected/NAME.report what the standard error has. The command runs in examples/.
"""
import os
import subprocess
import sys

from harness import Case, Failed, check, shown


def read(path, otherwise=b""):
    if not os.path.isfile(path):
        return otherwise
    with open(path, "rb") as it:
        return it.read()


def expected(folder, name):
    """The wanted lines, as kept, once the program beside them has printed the same."""
    kept = read(f"{folder}/expected/{name}.out", None)
    check(kept is not None, f"there is no expected/{name}.out")
    script = f"expected/{name}.py"
    check(os.path.isfile(f"{folder}/{script}"), f"there is no {script}")
    ran = subprocess.run([sys.executable, "-B", script], cwd=folder, capture_output=True, timeout=60, check=False)
    check(ran.returncode == 0, f"{script} ended with {ran.returncode}: {shown(ran.stderr)}")
    check(ran.stdout == kept, f"{script} prints {shown(ran.stdout)}, and expected/{name}.out has {shown(kept)}")
    return kept


def one(folder, name):
    def work(run):
        with open(f"{folder}/{name}.lucid", "rb") as it:
            check(it.read().lstrip().startswith(b"//"), "it doesn't begin with a comment that says what it shows")
        wanted = expected(folder, name)
        words = read(f"{folder}/{name}.args", b"{}").decode().splitlines()
        words = [it.replace("{}", f"{name}.lucid") for it in words]
        status = int(read(f"{folder}/expected/{name}.status", b"0").decode().strip())
        run.lucid(*words, cwd=folder).must(wanted, status, read(f"{folder}/expected/{name}.report", None))
    return Case(f"examples/{name}.lucid", work)


def cases(top):
    folder = os.path.join(top, "examples")
    if not os.path.isdir(folder):
        return []
    names = sorted(it[: -len(".lucid")] for it in os.listdir(folder) if it.endswith(".lucid"))
    its = os.listdir(folder) + os.listdir(f"{folder}/expected")
    lost = {it.rpartition(".")[0] for it in its if it.endswith((".args", ".py", ".out", ".status", ".report"))} - set(names)

    def whole(_):
        if not names or lost:
            raise Failed(f"without a program: {sorted(lost)}" if lost else "there is no program")
    return [one(folder, it) for it in names] + [Case("examples: each file belongs to a program", whole)]
