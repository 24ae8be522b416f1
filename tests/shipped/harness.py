"""Runs cases beside each other and counts them; runs the built command over real files and pipes."""
import os
import signal
import subprocess
import sys
import tempfile
import threading
import time
from concurrent.futures import ThreadPoolExecutor, as_completed

SECONDS = 60  # that a call may take; tools/check --seconds changes it
NOBODY = 65534


class Skipped(Exception):
    """A case needs a tool that isn't there."""


class Failed(Exception):
    """A case isn't as it should be; the text says how."""


class Case:
    """A named piece of work: `work` is called with a `Run` and raises `Failed` or `Skipped`. A long one is begun first."""

    def __init__(self, name, work, is_long=False):
        self.name, self.work, self.is_long = name, work, is_long


CASES = []


def case(work):
    """Notes a function as a case, under its module's and its own name."""
    CASES.append(Case(name_of(work), work))
    return work


def long_case(work):
    """The same of a case that takes some seconds."""
    CASES.append(Case(name_of(work), work, is_long=True))
    return work


def name_of(work):
    return f"{work.__module__}: {work.__name__.replace('_', ' ')}"


def shown(data, most=300):
    """A short form of bytes or words for a report."""
    text = repr(data)
    return text if len(text) <= most else f"{text[: most // 2]} .. {text[-most // 2 :]} (of length {len(data)})"


class Ended:
    """What a run wrote, and how it ended: a status, or minus a signal's number."""

    def __init__(self, words, status, out, report):
        self.words, self.status, self.out, self.report = shown(words), status, out, report

    def must(self, out=None, status=0, report=None):
        """Compares with what is wanted. Without a report none may stand beside status 0, and any beside another one."""
        if self.status != status:
            raise Failed(f"{self.words} ended with {self.status}, not {status}: {shown(self.out)}, {shown(self.report)}")
        if out is not None and self.out != bytes_of(out):
            raise Failed(f"{self.words} wrote {shown(self.out)}, not {shown(bytes_of(out))}")
        if report is None and status == 0:
            report = b""
        if report is not None and self.report != bytes_of(report):
            raise Failed(f"{self.words} reported {shown(self.report)}, not {shown(bytes_of(report))}")
        return self


def bytes_of(text):
    return text if isinstance(text, bytes) else text.encode()


def lines(*values):
    """Each value on a line, as the command writes them."""
    return "".join(f"{it}\n" for it in values)


def check(holds, why):
    if not holds:
        raise Failed(why)


class Run:
    """One case's folder, and calls of the command in it."""

    def __init__(self, command, top, room):
        self.command, self.top, self.room = command, top, room

    def path(self, name):
        return os.path.join(self.room, name)

    def write(self, name, data):
        """Writes a file in the case's folder, and returns its name."""
        with open(self.path(name), "wb") as out:
            out.write(bytes_of(data))
        return name

    def source(self, text, name="p"):
        return self.write(name, text)

    def words(self, words, limits=""):
        """The words of a call. `limits` are words of the shell that stand before it, as `ulimit -s 256` or `exec <&-`."""
        call = [self.command, *words]
        return ["/bin/sh", "-c", f'{limits}\nexec "$@"', "sh", *call] if limits else call

    def needs_a_plain_command(self):
        """Skips a case of little memory where the command was built with a checker of memory, which wants much of it."""
        with open(self.command, "rb") as it:
            if b"__asan_init" in it.read():
                raise Skipped("command that is built without a checker of memory")

    def start(self, words, limits="", **how):
        how = {"stdin": subprocess.DEVNULL, "stdout": subprocess.PIPE, "stderr": subprocess.PIPE, "cwd": self.room, **how}
        how["start_new_session"] = True
        return subprocess.Popen(self.words(words, limits), **how)

    def lucid(self, *words, given=b"", limits="", seconds=None, **how):
        """Runs the command to its end."""
        if "stdin" not in how:
            how["stdin"] = subprocess.PIPE
        child = self.start(words, limits, **how)
        return self.ended(child, words, given if how["stdin"] == subprocess.PIPE else None, seconds)

    def beside(self, name):
        """The same folder with another command, which stands beside this one."""
        command = os.path.join(os.path.dirname(self.command), name)
        if not os.path.isfile(command):
            raise Skipped(f"built command {name}")
        return Run(command, self.top, self.room)

    def explaining(self):
        """The same folder with the command that explains its reports."""
        return self.beside("lucid_explain")

    def showing(self):
        """The same folder with the command that shows a demand."""
        return self.beside("lucid_show")

    def ended(self, child, words=(), given=None, seconds=None):
        """Waits for the end of a call."""
        seconds = seconds or SECONDS
        try:
            out, report = child.communicate(given if given is None else bytes_of(given), timeout=seconds)
        except subprocess.TimeoutExpired:
            os.killpg(child.pid, signal.SIGKILL)
            out, report = child.communicate()
            raise Failed(f"{shown(list(words))} had not ended after {seconds} seconds, with {shown(out or b'')} written") from None
        return Ended(list(words), child.returncode, out, report)

    def shell(self, text, seconds=None, **how):
        """Runs a line of the shell, in which `$LUCID` is the command."""
        how = {"stdin": subprocess.DEVNULL, "stdout": subprocess.PIPE, "stderr": subprocess.PIPE, "cwd": self.room, **how}
        how |= {"env": {**os.environ, "LUCID": self.command}, "start_new_session": True}
        child = subprocess.Popen(["/bin/sh", "-c", text], **how)
        return self.ended(child, [text], None, seconds)


class Count:
    """What came of the cases so far."""

    def __init__(self, known, out):
        self.known, self.out, self.lock = known, out, threading.Lock()
        self.passed = self.failed = self.awaited = self.skipped = 0

    def say(self, line):
        print(line, file=self.out, flush=True)

    def take(self, name, trouble):
        with self.lock:
            if isinstance(trouble, Skipped):
                self.skipped += 1
                self.say(f"{name}: skipped: no {trouble}")
            elif trouble is None:
                self.passed += 1
                if name in self.known:
                    self.say(f"{name}: passes, and stands in tests/shipped/known.txt: take its line out")
            elif name in self.known:
                self.awaited += 1
                self.say(f"{name}: known to fail: {self.known[name]}")
            else:
                self.failed += 1
                self.say(f"{name}: FAILED: {trouble}")


def known_failures(path):
    """Cases that are known to fail, each with a reason: lines `NAME = REASON`."""
    found = {}
    with open(path, encoding="utf-8") as it:
        for line in it:
            name, sign, reason = line.strip().partition(" = ")
            if sign and not name.startswith("#"):
                found[name] = reason
    return found


def work_one(it, command, top, room):
    """Runs one case in a folder of its own, and returns what it raised."""
    with tempfile.TemporaryDirectory(dir=room) as own:
        try:
            it.work(Run(command, top, own))
        except (Failed, Skipped) as trouble:
            return trouble
        except Exception as trouble:  # a fault of the case itself
            return Failed(f"{type(trouble).__name__}: {trouble}")
    return None


def run_all(cases, command, top, known, jobs, verbose):
    """Runs the cases, the long ones first, and returns how many passed and failed."""
    count, begun = Count(known, sys.stdout), time.monotonic()
    names = {it.name for it in cases}
    check(len(names) == len(cases), "two cases have one name")
    with tempfile.TemporaryDirectory(prefix="lucid-check-") as room:
        os.chmod(room, 0o755)
        with ThreadPoolExecutor(jobs) as pool:
            order = sorted(cases, key=lambda it: not it.is_long)
            ran = {pool.submit(timed, it, command, top, room): it for it in order}
            for done in as_completed(ran):
                trouble, took = done.result()
                count.take(ran[done].name, trouble)
                if verbose:
                    count.say(f"  {took:6.2f} s  {ran[done].name}")
    more = "".join(f", {n} {what}" for n, what in ((count.awaited, "known to fail"), (count.skipped, "skipped")) if n)
    count.say(f"{len(cases)} cases in {time.monotonic() - begun:.0f} seconds{more}")
    return count.passed, count.failed


def timed(it, command, top, room):
    begun = time.monotonic()
    trouble = work_one(it, command, top, room)
    return trouble, time.monotonic() - begun
