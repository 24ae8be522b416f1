"""Which edits the gate tries, and when it fails: over a small repository, with a tool in the place of `rt` that says of each edit what its text says."""
import os
import shutil
import subprocess
import sys

from harness import Skipped, case, check, shown

RT = '''#!/usr/bin/env python3
import glob, os, sys
def main(words):
    bad = 0
    edits = sorted(glob.glob("crates/*/must-fail/*.edit"))
    for it in edits:
        name = it.split("/")[1] + "/" + it.split("/")[3]
        text = open(it).read()
        if "passed over" in text:
            continue
        bad += "let through" in text
        print(f"rt: must-fail {name}: " + ("NOT REFUSED: it is proved" if "let through" in text else "refused, as it must be"))
    print(f"{len(edits) - bad} passed, {bad} failed")
    return 1 if bad else 0
if __name__ == "__main__":
    sys.exit(main(sys.argv[1:]))
'''
CHECK = "#!/bin/sh\necho 1 passed, 0 failed\n"
EDIT = "# refused by a clause\nfile: src/lib.rt\nold: one\nnew: two\n"


class Small:
    """A repository of three crates, `low`, `middle` on it and `high` on that, each with an edit; each was tried at its first commit."""

    def __init__(self, run):
        if shutil.which("git") is None:
            raise Skipped("git")
        self.run, self.top = run, run.path("small")
        self.write("crates.txt", "low:\nmiddle: low\nhigh: middle\n")
        self.write("tools/check", CHECK)
        self.write("docs/WORKING.md", "<!-- costs -->\n<!-- /costs -->\n")
        self.write("bin/rt", RT)
        for it in ("gate", "batches", "refused_by", "costs.py"):
            shutil.copy2(os.path.join(run.top, "tools", it), os.path.join(self.top, "tools", it))
        for it in ("low", "middle", "high"):
            self.write(f"crates/{it}/src/lib.rt", "one\n")
            self.write(f"crates/{it}/specs/Lib.antt", "one\n")
            self.write(f"crates/{it}/must-fail/turned.edit", EDIT)
        for it in ("tools/check", "bin/rt"):
            os.chmod(os.path.join(self.top, it), 0o755)
        self.git("init", "-q")
        self.commit()
        self.write("crates/edits-tried", f"commit {self.git('rev-parse', 'HEAD').strip()}\n")

    def write(self, name, text):
        path = os.path.join(self.top, name)
        os.makedirs(os.path.dirname(path), exist_ok=True)
        with open(path, "w", encoding="utf-8") as out:
            out.write(text)

    def git(self, *words):
        who = ["-c", "user.name=gate", "-c", "user.email=gate@localhost", "-c", "safe.directory=*"]
        return subprocess.run(["git", *who, *words], cwd=self.top, check=True, capture_output=True, text=True).stdout

    def commit(self):
        self.git("add", "-A")
        self.git("commit", "-q", "-m", "as it is")

    def gate(self, *words):
        """What the gate says, and its status."""
        path = os.path.join(self.top, "bin") + os.pathsep + os.environ.get("PATH", os.defpath)
        known = {"GIT_CONFIG_COUNT": "1", "GIT_CONFIG_KEY_0": "safe.directory", "GIT_CONFIG_VALUE_0": "*"}
        ran = subprocess.run([sys.executable, "tools/gate", *words], cwd=self.top, capture_output=True, text=True, env={**os.environ, "PATH": path, **known})
        return ran.stdout + ran.stderr, ran.returncode

    def tried(self):
        said, _ = self.gate("--plan")
        return [it.split()[1] for it in said.split("\n") if it.startswith("tried: ")]


@case
def definitions_that_changed_bring_their_edits_and_those_right_above(run):
    small = Small(run)
    check(small.tried() == [], f"tried without a change: {small.tried()}")
    small.write("crates/low/specs/Lib.antt", "two\n")
    check(small.tried() == ["low", "middle"], f"tried: {small.tried()}")


@case
def code_and_edits_that_changed_bring_their_own_edits_alone(run):
    small = Small(run)
    small.write("crates/low/src/lib.rt", "one more\n")
    check(small.tried() == ["low"], f"of code tried: {small.tried()}")
    small.write("crates/low/src/lib.rt", "one\n")
    small.write("crates/high/must-fail/turned.edit", EDIT.replace("a clause", "another"))
    check(small.tried() == [], f"of a comment tried: {small.tried()}")
    small.write("crates/high/must-fail/another.edit", EDIT)
    check(small.tried() == ["high"], f"of a new edit tried: {small.tried()}")


@case
def a_commit_that_is_not_there_brings_all_edits(run):
    small = Small(run)
    small.write("crates/edits-tried", f"commit {'0' * 40}\n")
    check(small.tried() == ["low", "middle", "high"], f"tried: {small.tried()}")
    os.remove(os.path.join(small.top, "crates/edits-tried"))
    check(small.tried() == ["low", "middle", "high"], f"without the file tried: {small.tried()}")


@case
def an_edit_that_is_let_through_fails_the_gate(run):
    small = Small(run)
    said, status = small.gate()
    check(status == 0 and said.endswith("\n1 passed, 0 failed\n"), f"{status}: {shown(said)}")
    small.write("crates/high/must-fail/turned.edit", EDIT + "# let through\nnew: three\n")
    said, status = small.gate()
    check(status == 1 and said.endswith("\n1 passed, 1 failed\n"), f"{status}: {shown(said)}")


@case
def an_edit_of_which_nothing_is_said_fails_the_gate(run):
    small = Small(run)
    small.write("crates/high/must-fail/turned.edit", EDIT + "# passed over\nnew: three\n")
    said, status = small.gate()
    check(status == 1 and "NOT TRIED: must-fail high/turned.edit\n" in said, f"{status}: {shown(said)}")


@case
def all_edits_refused_are_noted_with_their_commit(run):
    small = Small(run)
    small.write("crates/high/src/lib.rt", "one more\n")
    said, status = small.gate("--whole")
    check(status == 0 and "isn't written" in said, f"with a change that isn't committed: {status}: {shown(said)}")
    small.commit()
    check(small.tried() == ["high"], f"tried: {small.tried()}")
    said, status = small.gate("--whole")
    check(status == 0 and said.endswith("\n4 passed, 0 failed\n"), f"{status}: {shown(said)}")
    check(small.tried() == [], f"after all were refused tried: {small.tried()}")


@case
def without_git_all_edits_are_tried(run):
    small = Small(run)
    shutil.rmtree(os.path.join(small.top, ".git"))
    said, status = small.gate()
    check(status == 0 and said.endswith("\n4 passed, 0 failed\n"), f"{status}: {shown(said)}")
