"""Several names side by side: what one column writes, how they stand beside each other, and names that are none."""
import os
import re
import subprocess

from examples import read
from harness import Failed, case, check, shown
from streams import line_from

SQUARES = "a where a = 1 fby a + 1; b = a * a; c = 5 fby eod; end"
SUBJECT = re.compile(rb"(?:\s|//[^\n]*\n)*([A-Za-z][A-Za-z0-9_]*)\s+where\b")
TASKS = {"--print", "--cycles", "--flat", "--from-flat", "--make", "--columns", "--stats"}


def rows(*cells):
    return "".join("\t".join(str(it) for it in row) + "\n" for row in cells)


@case
def a_column_alone_is_the_program_of_its_name(run):
    folder, tried = os.path.join(run.top, "examples"), 0
    for name in sorted(it[: -len(".lucid")] for it in os.listdir(folder) if it.endswith(".lucid")):
        words = [it.replace("{}", f"{name}.lucid") for it in read(f"{folder}/{name}.args", b"{}").decode().splitlines()]
        subject = SUBJECT.match(read(f"{folder}/{name}.lucid"))
        if not subject or TASKS & set(words):
            continue
        plain = run.lucid(*words, cwd=folder)
        beside = run.lucid(*words, "--columns", subject[1].decode(), cwd=folder)
        if beside.report.startswith(b"no column "):
            continue
        tried += 1
        same = (plain.status, plain.out, plain.report) == (beside.status, beside.out, beside.report)
        check(same, f"{name}: {shown(beside.out)} and {shown(beside.report)}, and alone {shown(plain.out)} and {shown(plain.report)}")
    if tried < 10:
        raise Failed(f"only {tried} examples have a name as their subject")


@case
def columns_stand_beside_each_other_to_the_last_end(run):
    run.source(SQUARES)
    run.lucid("p", "--columns", "a,b,c", "--count", "3").must(rows((1, 1, 5), (2, 4, ""), (3, 9, "")))
    run.lucid("p", "--columns=c,c").must(rows((5, 5)))
    for policy in ("keep", "none", "last", "age"):
        run.lucid("p", "--columns", "b,a", "--count", "4", "--policy", policy).must(rows((1, 1), (4, 2), (9, 3), (16, 4)))


@case
def a_line_of_columns_is_out_before_the_next_element_is_wanted(run):
    run.source("s where s = a fby s + next a; d = a + a; end")
    child = run.start(["p", "--columns", "s,d"], stdin=subprocess.PIPE)
    total = 0
    for value in (3, 4, 5, 600, -12):
        child.stdin.write(f"{value}\n".encode())
        child.stdin.flush()
        total += value
        got = line_from(child.stdout)
        check(got == f"{total}\t{value + value}\n".encode(), f"{shown(got)} came for {total}")
    run.ended(child, ["p"]).must("")


@case
def names_that_are_no_columns(run):
    run.source("a where a = f(x) fby y; f(n) = n; y = b where b = 2; end; z is current y; end")
    for name in ("x", "f", "n", "b", "z", "no"):
        run.lucid("p", "--columns", f"y,{name},a").must("", 1, f"no column {name}\n")
    run.lucid("p", "--columns", "x,f").must("", 1, "no column x\n")


@case
def words_of_columns_that_are_usage(run):
    run.source(SQUARES)
    for words in (["a,"], [","], [""], ["a b"], ["1"], ["where"], ["a", "--print"], ["a", "--flat"], ["a", "--make", "3"], [",".join("a" * 17)]):
        ended = run.lucid("p", "--columns", *words)
        ended.must("", 2)
        check(ended.report.startswith(b"usage:"), f"the report of {words} is {shown(ended.report)}")
    run.lucid("p", "--columns", ",".join("a" * 16), "--count", "1").must(rows([1] * 16))


@case
def columns_that_are_too_deep(run):
    run.source("a where a = 1 fby a; b = if a eq 1 then b else 2 fi; c = 3; end")
    run.lucid("p", "--columns", "a,b,c").must("", 5, "too deep at time 0\n")
    run.lucid("p", "--columns", "a,c", "--count", "1").must(rows((1, 3)))
