"""The exercises beside the tutorial: the wanted lines are what mathematics says, an answer is found right, and a wrong one isn't.

docs/exercises/NAME.expected has the wanted lines and NAME.args the words; answers/NAME.lucid beside this file is a program that is
right. What is wanted is computed here, by no program of Lucid.
"""
import os
import re
import subprocess
from itertools import accumulate, count, takewhile

from harness import check, lines, shown

HERE = os.path.dirname(os.path.abspath(__file__))
FOLDER = "docs/exercises"


def lucas(number):
    found = [2, 1]
    while len(found) < number:
        found.append(found[-1] + found[-2])
    return found


def cubes(number):
    return [n**3 for n in range(number)]


def differences(values):
    return [b - a for a, b in zip([0, *values], values)]


def input_lines(top, name):
    with open(os.path.join(top, FOLDER, "inputs", name), encoding="ascii") as it:
        return it.read().splitlines()


def integers(top, name):
    return [int(it) for it in input_lines(top, name) if it.lstrip("-").isdigit()]


def row(values):
    return f"[% {' '.join(map(str, values))} %]"


def wanted(top):
    """The values of each exercise."""
    heat, x, y = (integers(top, it) for it in ("temperatures", "left", "right"))
    return {
        "1_threes": [3 * n + 5 for n in range(6)],
        "1_low_high": ["low"] * 3 + ["high"] * 3,
        "2_seconds": [365 * 24 * 60 * 60],
        "2_frame": [9 * 9 - 5 * 5],
        "3_triangles": [sum(range(t + 1)) for t in range(7)],
        "3_lucas": lucas(8),
        "3_lamp": (["on", "on", "off"] * 3)[:7],
        "4_columns": ["\t".join(map(str, it)) for it in zip(range(5), cubes(5), accumulate(cubes(5)))],
        "4_shallow": list(range(0, 36, 7)),
        "5_odd_squares": [n * n for n in range(1, 10, 2)],
        "5_first_cube": [next(n**3 for n in count() if n**3 > 5000)],
        "5_thrice": [n for n in range(3) for _ in range(3)],
        "6_smallest": list(accumulate(((n * 7 + 5) % 11 for n in range(6)), min)),
        "6_digits": [sum(map(int, str(n * 37))) for n in range(8)],
        "6_differences": differences(differences(cubes(6))),
        "7_divisors": [sum(n % d == 0 for d in range(1, n + 1)) for n in range(1, 11)],
        "7_logarithm": [max(e for e in range(8) if 2**e <= k) for k in range(1, 11)],
        "8_below": list(takewhile(lambda it: it < 1000, (3**n for n in count()))),
        "8_mean": [(2 + 7 + 1 + 8) // 4],
        "9_warmer": ["up" if b > a else "down" if b < a else "same" for a, b in zip(heat, heat[1:])],
        "9_tickets": list(accumulate(integers(top, "tickets"))),
        "9_both": [a + b for a, b in zip(x, y)],
        "10_four": list(range(4)),
        "10_ring": [2**n for n in range(5)],
        "11_none": list(range(0, 11, 2)),
        "11_room": list(accumulate(n * n for n in range(8))),
        "12_row": [row(s * s for s in range(5))],
        "12_train": [row([0] * t + [1, 2, 3] + [0] * (2 - t)) for t in range(3)],
    }


def tried(run, prefix, name, source):
    """What the installed checker says of a source: its status, and its two outputs."""
    run.source(source, "mine.lucid")
    call = [f"{prefix}/bin/lucid_exercise", name, "mine.lucid"]
    ran = subprocess.run(call, cwd=run.room, capture_output=True, timeout=60, check=False, stdin=subprocess.DEVNULL)
    return ran.returncode, ran.stdout.decode(), ran.stderr.decode()


def faults(run, prefix, name):
    """What is wrong with an exercise: its lines aren't what is computed here, or its answer isn't right."""
    with open(os.path.join(run.top, FOLDER, f"{name}.expected"), encoding="ascii") as it:
        kept, computed = it.read(), lines(*wanted(run.top)[name])
    if kept != computed:
        yield f"it wants {shown(kept)}, and right is {shown(computed)}"
    with open(os.path.join(HERE, "answers", f"{name}.lucid"), encoding="ascii") as it:
        status, *said = tried(run, prefix, name, it.read())
    if status:
        yield f"the answer isn't right: {shown(said)}"


def whole(top):
    """Each exercise has its lines, its answer and its row in the page, and no file belongs to none."""
    names = set(wanted(top))
    with open(os.path.join(top, FOLDER, "README.md"), encoding="utf-8") as it:
        rows = re.findall(r"^\| `(\w+)` \|", it.read(), re.MULTILINE)
    files = [it for it in os.listdir(os.path.join(top, FOLDER)) if it.endswith((".expected", ".args"))]
    answers = [it.removesuffix(".lucid") for it in os.listdir(os.path.join(HERE, "answers"))]
    check(len(rows) == len(names) and set(rows) == names, f"the page has not the same exercises: {shown(set(rows) ^ names)}")
    check(set(answers) == names, f"without an exercise or an answer: {shown(set(answers) ^ names)}")
    check({it.rpartition(".")[0] for it in files} == names, f"without an exercise or lines: {shown(files)}")
