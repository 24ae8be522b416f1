#!/usr/bin/env python3
"""Times `lucid` on the programs beside this file, and prints seconds, lines a second and peak memory for each.

  bench/run.py [LUCID] [--beside NAME=BINARY].. [--beside-hand] [--times N] [--only NAME,..] [--policies] [--growth] [--certificates]

LUCID          the built command; without it crates/lucid/out/lucid, which `rt run -- data/p` in crates/lucid leaves there
--beside       another interpreter that takes the same words: both run in turns, and ratios of processor time are printed
--beside-hand  the same with the programs as one would write them without lucid, which lie in bench/beside: as Python generators and
               as Rust iterators, each with a line written at once, as lucid does, and with lines gathered (`blocks`). It needs rustc
--times        how many runs of each; the median is printed (5)
--only         these programs alone, or these kinds of growth
--policies     each program under `keep`, `last` and `age` in turns, in place of `keep` alone: ratios are to `keep`
--growth       each kind of growth at half and at full size in place of the programs: what twice the work costs
--certificates making and checking certificates of half a million and of a million judgments in place of the programs

What stands beside must write the bytes that lucid writes, on a few lines, before it is timed.

Output goes to the null device. Times are of the whole process, from its start to its end.
"""
import argparse
import os
import random
import shutil
import statistics
import subprocess
import sys
import tempfile
import time

HERE = os.path.dirname(os.path.abspath(__file__))
BUILT = os.path.join(HERE, "..", "crates", "lucid", "out", "lucid")

# How many times more lines an input has than the program writes. Each is a number below 1,000.
NUMBERS = {"running_sum": 1, "input_whenever": 2, "input_upon": 2, "input_asa": 1, "input_nested": 3}

# Programs that ask backwards from the time that stands in the one line of their input: that of the last line they write.
FALLING = {"falling_whenever", "falling_upon", "falling_asa"}


def walk(chosen, count):
    """Numbers from 0 to 999, each near the one before."""
    at = 500
    for _ in range(count):
        at = max(0, min(999, at + chosen.randint(-40, 40)))
        yield at


def signal(chosen, count):
    """A signal of 0 and 1 with wrong values between: one in twenty."""
    at = 0
    for _ in range(count):
        at ^= chosen.random() < 0.1
        yield at ^ (chosen.random() < 0.05)


def states(chosen, count):
    """Words, each up to twelve times in a row."""
    for _ in range(count):
        yield from [chosen.choice(["up", "down", "idle"])] * chosen.randint(1, 12)


def users(chosen, count):
    """Words out of 301."""
    return (f"u{chosen.randint(0, 300)}" for _ in range(count))


# Filters: what makes their inputs, and how many lines these have for a line that is written.
FILTERS = {
    "median3": (walk, 2),
    "moving_average": (walk, 1),
    "variance": (walk, 2),
    "debounce": (signal, 2),
    "rle": (states, 2),
    "dedupe": (users, 8),
}

# The most lines that are compared before what stands beside is timed.
COMPARED = 100

# A depth that is enough for each program here.
DEEP = ["--depth", "1000000"]

# Each program: its file (none for a made one), its lines, and further words.
PROGRAMS = {
    "count_up": ("count_up", 1_000_000, []),
    "fibonacci": ("fibonacci", 100_000, []),
    "made": (None, 200, ["--make", "1000"]),
    "made_long": (None, 1_000, ["--make", "1000"]),
    "advance": ("advance", 100_000, []),
    "running_sum": ("running_sum", 1_000_000, []),
    "nested_time": ("nested_time", 500_002, DEEP),
    "inner_loop": ("inner_loop", 1_000, []),
    "factorial": ("factorial", 300, []),
    "filter": ("filter", 100_000, DEEP),
    "list_build": ("list_build", 3_000, []),
    "input_whenever": ("input_whenever", 100_000, DEEP),
    "input_upon": ("input_upon", 100_000, DEEP),
    "input_asa": ("input_asa", 100_000, DEEP),
    "input_nested": ("input_nested", 100_000, DEEP),
    "deep": ("deep", 1, DEEP),
    "median3": ("median3", 100_000, []),
    "moving_average": ("moving_average", 100_000, []),
    "variance": ("variance", 100_000, []),
    "debounce": ("debounce", 100_000, []),
    "rle": ("rle", 20_000, DEEP),
    "dedupe": ("dedupe", 250, []),
}

# The policies that are compared, and the words that ask for each.
POLICIES = {"keep": [], "last": ["--policy", "last"], "age": ["--policy", "age"]}


def twice(program, lines, more=(), width=0):
    """A kind of growth where lines are twice as many: the program, and its sizes."""
    return program, [(lines, more, width), (2 * lines, more, width)]


# Each kind of growth: its program, and lines, words and the bytes of an input's line at half and at full size.
GROWTH = {
    "lines": twice("count_up", 500_000),
    "under last": twice("count_up", 500_000, ["--policy", "last"]),
    "under age": twice("count_up", 500_000, ["--policy", "age"]),
    "under a great age": twice("count_up", 100_000, ["--policy", "age", "--age", "1000000"]),
    "whenever": twice("input_whenever", 50_000, DEEP),
    "whenever under last": twice("input_whenever", 50_000, [*DEEP, "--policy", "last"]),
    "whenever under age": twice("input_whenever", 50_000, [*DEEP, "--policy", "age"]),
    "upon": twice("input_upon", 50_000, DEEP),
    "asa": twice("input_asa", 50_000, DEEP),
    "one search in another": twice("input_nested", 50_000, DEEP),
    "falling whenever": twice("falling_whenever", 10_000, DEEP),
    "falling upon": twice("falling_upon", 10_000, DEEP),
    "falling asa": twice("falling_asa", 50_000, DEEP),
    "contexts": ("nested_time", [(250_000, DEEP, 0), (499_999, DEEP, 0)]),
    "items of a list": twice("list_build", 30_000),
    "made names": (None, [(2, ["--make", "5000"], 0), (2, ["--make", "10000"], 0)]),
    "bytes of an input": twice("length_of_lines", 500_000, [], 200),
}


# A certificate of this program's value at time 0 has four judgments for each reference that the value is deep: a name's, and of its right side
# `fby`, `+` and 1.
PROVED, JUDGMENTS = "x attime {} where x = 0 fby x + 1; end", 4


def run(call, given, measure=None, to=os.devnull):
    """Runs a call over an input, and returns its seconds and its processor's seconds."""
    with open(given, "rb") as source, open(to, "wb") as out:
        begun = time.perf_counter()
        child = subprocess.Popen([*(measure or []), *call], stdin=source, stdout=out, stderr=subprocess.DEVNULL)
        _, status, used = os.wait4(child.pid, 0)
        took = time.perf_counter() - begun
    if os.waitstatus_to_exitcode(status) != 0:
        sys.exit(f"{' '.join(call)} ended with {os.waitstatus_to_exitcode(status)}")
    return took, used.ru_utime + used.ru_stime


def peak(call, given, room):
    """Returns the most memory of a call, in MiB."""
    run(call, given, ["/usr/bin/time", "-q", "-f", "%M", "-o", f"{room}/most"])
    with open(f"{room}/most", encoding="ascii") as told:
        return int(told.read().split()[-1]) / 1024


def words_of(binary, program, lines, more):
    source = [] if program is None else [f"{HERE}/programs/{program}.lucid"]
    return [binary, *more, "--count", str(lines), *source]


def script_of(name):
    """The file of a program by hand in Python; one that can't be said so has none."""
    return f"{HERE}/beside/{name}.py"


def hands(room):
    """Builds the programs by hand in Rust, and returns how each way to write a program by hand is called, of a name and lines."""
    if shutil.which("rustc") is None:
        sys.exit("--beside-hand needs rustc")
    binary = f"{room}/by_hand"
    subprocess.run(["rustc", "-O", "--edition=2021", "-o", binary, f"{HERE}/beside/by_hand.rs"], check=True)
    # without the variables of the surroundings, of which one turns off that lines are gathered
    python = [sys.executable, "-E", "-B"]
    return {
        "python": lambda name, lines: [*python, script_of(name), str(lines)],
        "python blocks": lambda name, lines: [*python, script_of(name), str(lines), "blocks"],
        "rust": lambda name, lines: [binary, name, str(lines)],
        "rust blocks": lambda name, lines: [binary, name, str(lines), "blocks"],
    }


def calls_of(binaries, by_hand, name, lines):
    """The calls of a program: of each interpreter, and by hand where it can be said so."""
    program, _, more = PROGRAMS[name]
    calls = {who: words_of(binary, program, lines, more) for who, binary in binaries.items()}
    if os.path.exists(script_of(name)):
        calls.update({who: call(name, lines) for who, call in by_hand.items()})
    return calls


def compare(calls, given):
    """Ends the bench where one of some calls doesn't write what lucid writes."""
    written = {}
    for who, call in calls.items():
        with open(given, "rb") as source:
            written[who] = subprocess.run(call, stdin=source, stdout=subprocess.PIPE, stderr=subprocess.DEVNULL, check=False).stdout
    others = [who for who, its in written.items() if its != written["lucid"]]
    if others:
        sys.exit(f"other lines than lucid's: {' '.join(calls[others[0]])}")


def input_of(room, program, lines, width):
    """Writes the input that the program reads, and returns its path."""
    path = f"{room}/input"
    with open(path, "w", encoding="ascii") as out:
        if program in NUMBERS:
            out.writelines(f"{i * 7919 % 1000}\n" for i in range(lines * NUMBERS[program]))
        elif program in FILTERS:
            make, times = FILTERS[program]
            out.writelines(f"{line}\n" for line in make(random.Random(7), lines * times))
        elif program in FALLING:
            out.write(f"{lines - 1}\n")
        elif width:
            text = "`" + "a" * (width - 3) + "'\n"
            out.writelines(text for _ in range(lines))
    return path


def medians(calls, given, times):
    """Runs each of some calls in turns, and returns each one's median of seconds and of processor's seconds."""
    found = {name: [] for name in calls}
    for _ in range(times):
        for name, call in calls.items():
            found[name].append(run(call, given))
    return {name: tuple(statistics.median(it[i] for it in runs) for i in range(2)) for name, runs in found.items()}


def programs(binaries, by_hand, only, times, room):
    print(f"{'program':14} {'lines':>9} {'who':13} {'seconds':>8} {'cpu':>8} {'ratio':>6} {'lines/s':>10} {'MiB':>7}")
    ratios = {}
    for name in only or [it for it in PROGRAMS if not by_hand or os.path.exists(script_of(it))]:
        program, lines, _ = PROGRAMS[name]
        given = input_of(room, program, lines, 0)
        compare(calls_of(binaries, by_hand, name, min(lines, COMPARED)), given)
        calls = calls_of(binaries, by_hand, name, lines)
        most = {who: peak(call, given, room) for who, call in calls.items()}
        found = medians(calls, given, times)
        for who, (took, work) in found.items():
            ratio = found["lucid"][1] / work
            ratios.setdefault(who, []).append(ratio)
            print(f"{name:14} {lines:9} {who:13} {took:8.3f} {work:8.3f} {ratio:6.2f} {lines / took:10.0f} {most[who]:7.1f}", flush=True)
    for who, its in ratios.items():
        if who != "lucid":
            print(f"processor time of lucid to {who}, geometric mean over {len(its)} programs: {statistics.geometric_mean(its):.2f}")


def policies(binary, only, times, room):
    """Each program under each policy, in turns."""
    print(f"{'program':14} {'lines':>9} {'policy':6} {'cpu':>8} {'ratio':>6} {'MiB':>7}")
    ratios = {}
    for name in only or PROGRAMS:
        program, lines, more = PROGRAMS[name]
        given = input_of(room, program, lines, 0)
        calls = {policy: words_of(binary, program, lines, [*more, *asked]) for policy, asked in POLICIES.items()}
        found = medians(calls, given, times)
        for policy, (_, work) in found.items():
            ratio = work / found["keep"][1]
            ratios.setdefault(policy, []).append(ratio)
            print(f"{name:14} {lines:9} {policy:6} {work:8.3f} {ratio:6.2f} {peak(calls[policy], given, room):7.1f}", flush=True)
    for policy, its in ratios.items():
        print(f"processor time of {policy} to keep, geometric mean over {len(its)} programs: {statistics.geometric_mean(its):.2f}")


def growth(binary, only, times, room):
    print(f"{'what grows':21} {'half':>8} {'full':>8} {'full/half':>9}")
    for name in only or GROWTH:
        program, sizes = GROWTH[name]
        took = []
        for lines, more, width in sizes:
            given = input_of(room, program, lines, width)
            took.append(medians({"lucid": words_of(binary, program, lines, more)}, given, times)["lucid"][1])
        print(f"{name:21} {took[0]:8.3f} {took[1]:8.3f} {took[1] / took[0]:9.2f}", flush=True)


def certificates(binary, times, room):
    """What it costs to make a certificate, and to check it."""
    print(f"{'what':6} {'judgments':>10} {'bytes':>12} {'cpu':>8} {'MiB':>7}")
    text, given = f"{room}/why", input_of(room, None, 0, 0)
    for depth in (125_000, 250_000):
        with open(f"{room}/p", "w", encoding="ascii") as out:
            out.write(PROVED.format(depth))
        calls = {"make": [binary, *DEEP, "--why", "0", f"{room}/p"], "check": [binary, "--check", text, f"{room}/p"]}
        run(calls["make"], given, to=text)
        with open(text, "rb") as it:
            size, judgments = os.path.getsize(text), sum(1 for _ in it)
        if judgments < depth * JUDGMENTS:
            sys.exit(f"the certificate has only {judgments} lines")
        for name, call in calls.items():
            work = statistics.median(run(call, given)[1] for _ in range(times))
            print(f"{name:6} {depth * JUDGMENTS:10} {size:12} {work:8.3f} {peak(call, given, room):7.1f}", flush=True)


def main():
    words = argparse.ArgumentParser(description=__doc__, formatter_class=argparse.RawDescriptionHelpFormatter)
    words.add_argument("lucid", nargs="?", default=BUILT)
    words.add_argument("--beside", action="append", default=[])
    words.add_argument("--beside-hand", action="store_true")
    words.add_argument("--times", type=int, default=5)
    words.add_argument("--only", default="")
    words.add_argument("--policies", action="store_true")
    words.add_argument("--growth", action="store_true")
    words.add_argument("--certificates", action="store_true")
    words = words.parse_args()
    binaries = {"lucid": words.lucid, **dict(it.split("=", 1) for it in words.beside)}
    only = [it for it in words.only.split(",") if it]
    with tempfile.TemporaryDirectory() as room:
        if words.certificates:
            certificates(words.lucid, words.times, room)
        elif words.growth:
            growth(words.lucid, only, words.times, room)
        elif words.policies:
            policies(words.lucid, only, words.times, room)
        else:
            programs(binaries, hands(room) if words.beside_hand else {}, only, words.times, room)


if __name__ == "__main__":
    main()
