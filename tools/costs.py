"""What a gate costs: watched while it runs, told in its log, and read from the table of docs/WORKING.md."""
import os
import re
import threading
import time

BEGINS, ENDS = "<!-- costs -->", "<!-- /costs -->"
ROW = re.compile(r"`(\w+)` \| ([\d.]*) \| ([\d.]*) \| ([\d.]*)(?: \((\d+)\))?")
TOLD = re.compile(r"^cost (\w+) proof ([\d.]+) tests ([\d.]+) edits ([\d.]+)(?: of (\d+))?$", re.M)
ALL = re.compile(r"^cost in all ([\d.]+) in ([\d.]+) minutes by (\d+) processors \((.*)\) on (\S+), of this the rest ([\d.]+)$", re.M)
KINDS = ("proof", "tests", "edits")


def ticks_of(pid):
    """The parent of a process, when it began, and the time that it took, in seconds."""
    with open(f"/proc/{pid}/stat", encoding="utf-8", errors="replace") as file:
        fields = file.read().rpartition(")")[2].split()
    return int(fields[1]), fields[19], (int(fields[11]) + int(fields[12])) / os.sysconf("SC_CLK_TCK")


def processor():
    """The name of the processor."""
    with open("/proc/cpuinfo", encoding="utf-8") as file:
        found = re.search(r"model name\s*: (.*)", file.read())
    return re.sub(r"\s+", " ", found[1]) if found else "unknown"


class Watch:
    """Looks once a second at the processes below one, and adds up what each check of a crate takes."""

    def __init__(self, pid):
        self.pid, self.seen, self.ended = pid, {}, threading.Event()

    def __enter__(self):
        self.thread = threading.Thread(target=self.go_on, daemon=True)
        self.thread.start()
        return self

    def __exit__(self, *_):
        self.ended.set()
        self.thread.join()

    def go_on(self):
        while not self.ended.wait(1):
            parents, times = {}, {}
            for it in filter(str.isdigit, os.listdir("/proc")):
                try:
                    parents[int(it)], begun, times[int(it), begun] = ticks_of(it)
                except (OSError, ValueError, IndexError):
                    continue
            # (a number is given to another process later, so it is known by its beginning too)
            for it, took in times.items():
                above = it[0]
                while above in parents and above != self.pid:
                    above = parents[above]
                what = self.seen[it][0] if it in self.seen else self.what(it[0]) if above == self.pid else None
                if what:
                    self.seen[it] = what, took

    def what(self, pid):
        """The crate of a check, and whether it is a proof's, the tests' or an edit's."""
        try:
            with open(f"/proc/{pid}/cmdline", encoding="utf-8", errors="replace") as file:
                words = file.read().split("\0")
            folder = os.readlink(f"/proc/{pid}/cwd")
        except OSError:
            return None
        if os.path.basename(words[0]) != "rattle" or "--crate-name" not in words:
            return None
        is_edit = os.path.basename(folder).startswith("rt-edit")
        return words[words.index("--crate-name") + 1], "edits" if is_edit else "tests" if "--test" in words else "proof"

    def tell(self, edits, tried, used, minutes):
        """Prints a line for each crate, and one for all, in processor-minutes."""
        sums = {}
        for (name, kind), took in self.seen.values():
            sums.setdefault(name, dict.fromkeys(KINDS, 0.0))[kind] += took / 60
        for name, took in sorted(sums.items()):
            count = f" of {len(edits[name])}" if name in tried else ""
            print(f"cost {name} " + " ".join(f"{it} {took[it]:.1f}" for it in KINDS) + count)
        rest = used - sum(sum(it.values()) for it in sums.values())
        count, day = len(os.sched_getaffinity(0)), time.strftime("%Y-%m-%d", time.gmtime())
        print(f"cost in all {used:.0f} in {minutes:.0f} minutes by {count} processors ({processor()}) on {day}, of this the rest {rest:.0f}")


def table_in(page):
    """The text between the marks of a page, and the figures of each crate there: proof, tests, edits, and how many edits."""
    with open(page, encoding="utf-8") as file:
        text = file.read()
    if BEGINS not in text or ENDS not in text:
        return None, {}
    table = text[text.index(BEGINS) + len(BEGINS):text.index(ENDS)]
    rows = {it[0]: [float(x or 0) for x in it[1:4]] + [int(it[4] or 0)] for it in ROW.findall(table)}
    return table, rows


def expected(page, crates, tried):
    """What a gate that tries the edits of these crates costs by the table, in a line; none where there is no table."""
    table, rows = table_in(page)
    if not rows:
        return None
    proof, tests = (sum(rows[it][at] for it in crates if it in rows) for at in (0, 1))
    edits = sum(rows[it][2] for it in tried if it in rows)
    rest = re.search(r"the rest ([\d.]+)", table)
    rest = float(rest[1]) if rest else 0
    lacking = [it for it in crates if it not in rows]
    whole = proof + tests + edits + rest
    line = f"by the table of docs/WORKING.md {whole:.0f} processor-minutes: proofs {proof:.0f}, tests {tests:.0f}, edits {edits:.0f}, the rest {rest:.0f};"
    line += f" so {whole / 2:.0f} minutes on two processors, {whole / 4:.0f} on four"
    return line + (f" (not in the table: {', '.join(lacking)})" if lacking else "")
