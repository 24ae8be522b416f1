"""What is handed out: it installs, over an older one too, overwrites and takes away nothing of others, and is the same bytes each time."""
import filecmp
import hashlib
import json
import os
import re
import shutil
import subprocess
import sys

import exercises
import harness
import layout
from harness import NOBODY, Skipped, case, check, lines, long_case, shown

LIST = "share/lucid/installed"


class Install:
    """The tools that install and pack, over the commands that are checked."""

    def __init__(self, run):
        self.run, self.built, self.prefix = run, os.path.dirname(run.explaining().command), run.path("there")

    def tool(self, name, *words, **how):
        """Runs a tool of the repository; what it says, and its status."""
        call = [sys.executable, "-B", os.path.join(self.run.top, "tools", name), *words]
        return self.said(call, **how)

    def said(self, call, **how):
        ran = subprocess.run(call, cwd=self.run.room, capture_output=True, timeout=5 * harness.SECONDS, check=False, stdin=subprocess.DEVNULL, **how)
        return ran.returncode, (ran.stdout + ran.stderr).decode()

    def install(self, wanted=0, **how):
        return self.must(wanted, self.tool("install", "--built", self.built, "--prefix", self.prefix, **how))

    def uninstall(self, wanted=0, **how):
        return self.must(wanted, self.tool("install", "--uninstall", "--prefix", self.prefix, **how))

    def must(self, wanted, ended):
        check(ended[0] == wanted, f"ended with {ended[0]}: {shown(ended[1])}")
        return ended[1]

    def package(self, out):
        """Packs into a folder, and returns the folder; what is packed has the time of the commit."""
        if shutil.which("git") is None or subprocess.run(["git", "log", "-1"], cwd=self.run.top, capture_output=True, check=False).returncode:
            raise Skipped("commit to pack")
        out = self.run.path(out)
        self.must(0, self.tool("package", "--uncommitted", "--built", self.built, "--out", out))
        return out

    def put(self, path, text):
        path = os.path.join(self.prefix, path)
        os.makedirs(os.path.dirname(path), exist_ok=True)
        with open(path, "w", encoding="ascii") as out:
            out.write(text)

    def text(self, path):
        with open(os.path.join(self.prefix, path), encoding="utf-8") as it:
            return it.read()

    def files(self):
        """The files below the prefix."""
        return sorted(os.path.relpath(os.path.join(at, it), self.prefix) for at, _, names in os.walk(self.prefix) for it in names)


def version(run):
    with open(os.path.join(run.top, "VERSION"), encoding="ascii") as it:
        return it.read().strip()


@case
def an_install_and_its_end(run):
    it = Install(run)
    it.install()
    run.source("x where\n  x = 1 end\n")
    where = {"cwd": "/", "capture_output": True, "timeout": 60, "check": False}
    ran = subprocess.run([f"{it.prefix}/bin/lucid", "--make", "1", "--count", "2"], **where)
    check(ran.stdout == b"1\n2\n", shown(ran.stdout))
    ran = subprocess.run([f"{it.prefix}/bin/lucid_explain", run.path("p")], **where)
    check(ran.stderr.startswith(f"syntax at 16\n{run.path('p')}:2:9:\n".encode()), shown(ran.stderr))
    for path in ("share/man/man1/lucid.1", "share/man/man1/lucid_explain.1", "share/bash-completion/completions/lucid_explain",
                 "share/vim/vimfiles/compiler/lucid_explain.vim", "share/doc/lucid/docs/TUTORIAL.md", "share/doc/lucid/examples/hamming.lucid"):
        check(os.path.isfile(f"{it.prefix}/{path}"), f"{path} isn't there")
    it.uninstall()
    check(not os.path.lexists(it.prefix), f"there is still {shown(it.files())}")
    it.uninstall(wanted=1)


@case
def what_was_there_stays(run):
    it = Install(run)
    it.put("bin/other", "of another")
    it.put("share/man/man1/other.1", "of another")
    it.install()
    it.uninstall()
    check(it.files() == ["bin/other", "share/man/man1/other.1"], shown(it.files()))


@case
def an_install_over_an_older_one(run):
    it = Install(run)
    it.install()
    first = it.files()
    it.put("share/lucid/dropped", "what the new one has no more\n")
    it.put("bin/lucid_explain", "#!/bin/sh\n# an older one\n")
    old = "".join(f"file {hashlib.sha256(it.text(path).encode()).hexdigest()} {path}\n" for path in ("share/lucid/dropped", "bin/lucid_explain"))
    it.put(LIST, re.sub("file .* bin/lucid_explain\n", "", it.text(LIST)) + old)
    it.put("share/doc/lucid/examples/hamming.lucid", "1 // changed by hand\n")
    said = it.install()
    changed = "share/doc/lucid/examples/hamming.lucid.changed"
    check(it.files() == sorted([*first, changed]) and changed in said, shown((set(it.files()) ^ set(first), said)))
    check(filecmp.cmp(f"{it.prefix}/bin/lucid_explain", f"{it.built}/lucid_explain", shallow=False), "the older command is still there")
    it.put("share/doc/lucid/examples/sieve.lucid", "2 // changed by hand\n")
    check("sieve.lucid" in it.uninstall(), "a file that is kept isn't told")
    check(it.files() == [changed, "share/doc/lucid/examples/sieve.lucid"], shown(it.files()))


@case
def a_file_of_another_is_not_overwritten(run):
    it = Install(run)
    it.put("bin/lucid", "of another")
    said = it.install(wanted=1)
    check(f"{it.prefix}/bin/lucid is there" in said and it.files() == ["bin/lucid"] and it.text("bin/lucid") == "of another", shown(said))


@case
def a_folder_without_the_right(run):
    it = Install(run)
    files = layout.tree(it.built)
    layout.put(run.path("archive"), {**files, "install.sh": (layout.installer(files), 0o755)})
    how = {"user": NOBODY, "group": NOBODY, "extra_groups": []} if os.geteuid() == 0 else {}
    os.chmod(run.room, 0o755)
    os.mkdir(it.prefix, 0o555)
    try:
        said = it.must(1, it.said([run.path("archive/install.sh"), "--prefix", it.prefix], **how))
    except PermissionError as trouble:
        raise Skipped("leave to run as another user") from trouble
    check(f"You may not write in {it.prefix}." in said and not it.files(), shown(said))


@case
def an_install_that_is_broken_off(run):
    it = Install(run)
    tools = run.path("tools")
    os.mkdir(tools)
    with open(f"{tools}/cp", "w", encoding="ascii") as out:
        out.write(f'#!/bin/sh\necho >>{tools}/count\n[ $(wc -l <{tools}/count) -lt 40 ] && exec {shutil.which("cp")} "$@"\nexit 1\n')
    os.chmod(f"{tools}/cp", 0o755)
    how = {"env": {**os.environ, "PATH": f"{tools}:{os.environ['PATH']}"}}
    check("can't be written" in it.install(wanted=1, **how), "it isn't told")
    check(len(it.files()) < 50, shown(it.files()))
    it.uninstall()
    check(not os.path.lexists(it.prefix), f"there is still {shown(it.files())}")
    os.remove(f"{tools}/count")
    it.install(wanted=1, **how)
    it.install()
    it.uninstall()
    check(not os.path.lexists(it.prefix), f"there is still {shown(it.files())}")


@long_case
def packages_are_the_same_bytes_and_the_archive_installs(run):
    it = Install(run)
    one, other = it.package("one"), it.package("other")
    names = sorted(os.listdir(one))
    check(names == sorted(os.listdir(other)) and filecmp.cmpfiles(one, other, names, shallow=False)[0] == names, shown(names))
    it.must(0, it.said(["sh", "-c", f"cd {one} && sha256sum --check --strict SHA256SUMS"]))
    an_archive(run, it, one)


def an_archive(run, it, packed):
    """An archive installs, and where its commands don't run it says why."""
    name = f"lucid-{version(run)}-x86_64-linux"
    it.must(0, it.said(["tar", "-xf", f"{packed}/{name}.tar.xz"]))
    folder = run.path(name)
    it.must(0, it.said([f"{folder}/install.sh", "--prefix", it.prefix]))
    it.uninstall()
    with open(f"{folder}/bin/lucid", "w", encoding="ascii") as stand_in:
        stand_in.write("#!/bin/sh\necho \"version 'GLIBC_2.34' not found\" >&2\nexit 1\n")
    said = it.must(1, it.said([f"{folder}/install.sh", "--prefix", it.prefix]))
    wanted = r"lucid doesn't run here. It needs Linux on x86_64 with the GNU C library \d+\.\d+ or later; this is Linux x86_64 with .*\d\.\n"
    check(re.match(wanted, said) and not os.path.lexists(it.prefix), shown(said))


@long_case
def the_package_is_as_debian_wants_it(run):
    it = Install(run)
    lacking = [tool for tool in ("lintian", "dpkg-deb", "dpkg-shlibdeps") if shutil.which(tool) is None]
    if lacking:
        raise Skipped(lacking[0])
    package = f"{it.package('out')}/lucid_{version(run)}_amd64.deb"
    said = it.must(0, it.said(["lintian", "--allow-root", "--fail-on", "error,warning", package]))
    check("E:" not in said and "W:" not in said, shown(said))


@long_case
def handouts_stand_alone(run):
    if shutil.which("pandoc") is None:
        raise Skipped("pandoc")
    it = Install(run)
    it.must(0, it.tool("handout", "--html", "--out", run.path("out")))
    with open(os.path.join(run.top, "docs/TUTORIAL.md"), encoding="utf-8") as page:
        lessons = len(re.findall("^## Lesson ", page.read(), re.MULTILINE))
    for name in os.listdir(run.path("out")):
        with open(run.path(f"out/{name}"), encoding="utf-8") as page:
            text = page.read()
        outside = [it for it in re.findall(r'(?:src|href)="([^"#]+)', text) if not re.match(r"data:|[A-Z]+\.html$", it)]
        check(not outside and "<link" not in text and "```" not in text, f"{name} needs {shown(outside)}")
        check(text.count('<h2 id="lesson-') == (lessons if name == "TUTORIAL.html" else 0), f"{name} has other lessons")
        check('h2[id^="lesson-"] { page-break-before: always; break-before: page; }' in text, f"{name} lacks the style")


@case
def versions_agree(run):
    wanted = version(run)
    with open(os.path.join(run.top, "editors/textmate/package.json"), encoding="utf-8") as it:
        check(json.load(it)["version"] == wanted, "editors/textmate/package.json has another version")
    with open(os.path.join(run.top, "CHANGELOG.md"), encoding="utf-8") as it:
        check(re.search("^## (.*)$", it.read(), re.MULTILINE)[1] == wanted, "CHANGELOG.md begins with another version")
    for name in os.listdir(os.path.join(run.top, "man")):
        with open(os.path.join(run.top, "man", name), encoding="utf-8") as it:
            check(f"\nThis page is that of version {wanted}.\n" in it.read(), f"man/{name} is of another version")


@case
def each_command_has_its_page_and_its_words(run):
    for name in [*layout.COMMANDS, *layout.SCRIPTS]:
        check(os.path.isfile(os.path.join(run.top, f"man/{name}.1")), f"there is no man/{name}.1")
    for path, begins in (("lucid.bash", "complete -F "), ("_lucid", "#compdef ")):
        with open(os.path.join(run.top, "completions", path), encoding="utf-8") as it:
            told = " ".join(line for line in it if line.startswith(begins)).split()
        check(set(layout.COMMANDS) <= set(told), f"completions/{path} is of {shown(told)} alone")
    for name in layout.COMMANDS:
        with open(os.path.join(run.top, f"completions/{name}.fish"), encoding="utf-8") as it:
            check(f"\ncomplete -c {name} " in it.read(), f"completions/{name}.fish is of another command")


@long_case
def answers_of_exercises_are_right(run):
    it = Install(run)
    it.install()
    wrong = [f"{name}: {said}" for name in exercises.wanted(run.top) for said in exercises.faults(run, it.prefix, name)]
    check(not wrong, shown("; ".join(wrong)))


@case
def exercises_are_whole(run):
    exercises.whole(run.top)


@case
def what_the_checker_says(run):
    it = Install(run)
    it.install()
    tried = [
        ("1_threes", "2 * n + 5 where n = 0 fby n + 1; end", 1, "The first difference is at time 1.\n  wanted: 8\n  yours:  7\nWhat it was computed from:\noutput at 1 is 7   = 2 * n at 1 + 5\n"
         "  n at 1 is 1   = n at 0 + 1\n    n at 0 is 0   = 0\n"),
        ("8_below", "1 fby 3 fby eod", 1, "The first difference is at time 2.\n  wanted: 9\n  yours:  no line: the run ended with status 0\n"),
        ("8_below", "if p < 2000 then p else p fi where p = 1 fby 3 * p; end", 1,
         "The first difference is at time 7.\n  wanted: no more lines: the program ends here\n  yours:  2187\nWhat it was computed from:\n"
         "output at 7 is 2187   = p at 7 < 2000 is false, so p at 7\n"
         + "".join(f"{'  ' * (8 - t)}p at {t} is {3 ** t}   = 3 * p at {t - 1}\n" for t in range(7, 0, -1)) + f"{'  ' * 8}p at 0 is 1   = 1\n"),
        ("4_columns", "c where n = 0 fby n + 1; a = n; b = n * n; c = b fby c + next b; end", 1,
         "The first difference is at time 2.\n  wanted: 2\t8\t9\n  yours:  2\t4\t5\n"),
        ("10_four", "n whenever n < 4 where n = 0 fby n + 1; end", 1,
         "The lines are right, and then the run ended with status 5: the program should end by itself.\n"),
        ("1_threes", "3 * m + 5 where n = 0 fby n + 1; end", 1,
         "The exercise has no such input: m\nA name that nothing defines is an input: mend its spelling, or define it.\n"),
        ("1_threes", "3 * n + 5 where n = 0 fby n + 1; end", 0, "Right: all lines, and there are 6.\n"),
        ("none", "1", 2, ""),
    ]
    for name, source, status, out in tried:
        got = exercises.tried(run, it.prefix, name, source)
        check((status, out) == got[:2], f"{name} of {source}: {shown(got)}")
    told = it.must(0, it.said([f"{it.prefix}/bin/lucid_exercise", "8_below"]))
    check(told == "the powers of 3 below 1000, and then the end\n", shown(told))
    run.write("own.expected", lines(*"abc"))
    got = exercises.tried(run, it.prefix, "./own", '"a" fby "b" fby "c" fby eod')
    check(got[:2] == (0, "Right: all lines, and there are 3.\n"), shown(got))
