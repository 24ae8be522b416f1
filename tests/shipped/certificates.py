"""Certificates of made programs: what `--why` writes is checked with Ok and holds the line that a run prints, and no changed one has another value told.

The programs are made of the forms with holes that the crate lucid_test_engine has, with a seed of their own for each case.
"""
import os
import random
import re

from harness import CASES, Case, check, shown

FORM = re.compile(r"^    \(b'(.)', (\d+), \"((?:[^\"\\]|\\.)*)\"\),$", re.M)
PROGRAMS, IN_A_CASE, TIMES, DEPTH = 1000, 50, (0, 3, 7), "300"
LINES = 8
FILES = {"a": [3, 1, 4, 1, 5, 9, 2, 6, 5, 3], "b": ["true", "[% 1 dog %]", "false", "`ab'", "true", 7, "true", "error", "false", "true"]}


def forms_of(top):
    """The forms by the hole that each fills, with how many nodes it has beyond one."""
    found = {}
    with open(os.path.join(top, "crates/lucid_test_engine/src/made_programs/maker.rt"), encoding="utf-8") as it:
        for hole, more, text in FORM.findall(it.read()):
            found.setdefault(hole, []).append((int(more), text.replace('\\"', '"').replace("\\\\", "\\")))
    check(len(found) == 7 and sum(map(len, found.values())) > 100, f"forms were read for {shown(found)}")
    return found


def expression(chance, forms, hole, nodes):
    """A text of at most so many nodes that fills a hole."""
    left, work, text = nodes - 1, [hole], []
    while work:
        byte = work.pop()
        fitting = [it for it in forms.get(byte, []) if it[0] <= left]
        if byte in forms:
            more, form = chance.choice(fitting)
            left -= more
            work.extend(reversed(form))
        else:
            text.append(byte)
    return "".join(text)


def program(chance, forms):
    x, y, f, g, subject = (expression(chance, forms, hole, chance.randrange(2, 9)) for hole in "~!|?#")
    return f"{subject} where x = {x}; y = {y}; f(x) = {f}; g(x, y) = {g}; end"


class Meaning:
    """What a run prints of a program: its value at a time, as far as it goes."""

    def __init__(self, run, words):
        self.run, self.words, self.lines, self.ended = run, words, [], None

    def at(self, time):
        """The text of the value at a time, or nothing where a run doesn't come to it."""
        if time >= len(self.lines) and self.ended is None:
            ended = self.run.lucid(*self.words, "--depth", DEPTH, "--count", str(max(time + 1, LINES)))
            check(ended.status in (0, 5), f"{ended.words} ended with {ended.status}: {shown(ended.report)}")
            self.lines = ended.out.decode().splitlines()
            if ended.status == 5:
                self.ended = None if len(self.lines) > time else "deep"
            elif len(self.lines) < max(time + 1, LINES):
                self.lines.append("eod")
                self.ended = "eod"
        return self.lines[time] if time < len(self.lines) else None


def changed(chance, text):
    """The text of a certificate with one thing changed."""
    digits = [i for i, it in enumerate(text) if it.isdigit()]
    rows = text.splitlines(keepends=True)
    kind = chance.randrange(4)
    if kind == 0:
        i = chance.choice(digits)
        return text[:i] + str((int(text[i]) + 1) % 10) + text[i + 1 :]
    if kind == 1:
        i = chance.randrange(len(rows))
        return "".join(rows[:i] + rows[i + 1 :])
    if kind == 2:
        i, k = chance.choice(digits), chance.choice(digits)
        new = list(text)
        new[i], new[k] = new[k], new[i]
        return "".join(new)
    i, k = chance.randrange(len(rows)), chance.randrange(len(rows))
    rows[i], rows[k] = rows[k], rows[i]
    return "".join(rows)


def told(run, words, text):
    """What `--check` tells of a text: a value and a time, or nothing where it is refused."""
    run.write("w", text)
    ended = run.lucid("--check", "w", *words)
    if ended.status:
        check(ended.status == 1 and not ended.out and ended.report, f"{ended.words} ended with {ended.status}: {shown(ended.report)}")
        return None
    found = re.fullmatch(r"(.*) at (\d+)\n", ended.out.decode())
    check(found and not ended.report, f"{ended.words} wrote {shown(ended.out)}, {shown(ended.report)}")
    return found[1], int(found[2])


def certificates_of(run, chance, forms):
    """Tries one program, and returns how many certificates it gave."""
    source = program(chance, forms)
    run.source(source)
    words = ["p", *(f"{it}={it}" for it in FILES if re.search(rf"(?<![`\w]){it}\b", source))]
    meaning, made = Meaning(run, words), 0
    for time in TIMES:
        value = meaning.at(time)
        ended = run.lucid("--why", str(time), *words, "--depth", DEPTH)
        if value is None:
            check(ended.status in (0, 5), f"{shown(source)} --why {time} ended with {ended.status}: {shown(ended.report)}")
        else:
            check(ended.status == 0, f"{shown(source)} has {value} at {time}, and --why ended with {ended.status}: {shown(ended.report)}")
        if ended.status == 5:
            check(ended.report == f"too deep at time {time}\n".encode() and not ended.out, f"{shown(source)} --why {time}: {shown(ended.report)}")
            continue
        made += 1
        text = ended.out.decode()
        said = told(run, words, text)
        check(said and said[1] == time and value in (None, said[0]), f"{shown(source)} at {time}: a run has {value}, the certificate {said}")
        for _ in range(3):
            new = changed(chance, text)
            said = told(run, words, new)
            if said:
                right = meaning.at(said[1])
                check(right in (None, said[0]), f"{shown(source)}: a run has {right} at {said[1]}, a changed certificate {said[0]}: {shown(new)}")
    return made


def work_of(number):
    def work(run):
        forms, made = forms_of(run.top), 0
        for name, rows in FILES.items():
            run.write(name, "".join(f"{it}\n" for it in rows))
        for i in range(IN_A_CASE):
            made += certificates_of(run, random.Random(number * IN_A_CASE + i), forms)
        check(made >= IN_A_CASE, f"only {made} certificates were made")

    return work


CASES += [
    Case(f"certificates: made programs {n * IN_A_CASE + 1} to {(n + 1) * IN_A_CASE}", work_of(n), is_long=True)
    for n in range(PROGRAMS // IN_A_CASE)
]
