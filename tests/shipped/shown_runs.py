"""A run, step by step, over real files. What is looked for first, what stays under a policy and what is dropped are written by hand, by the rules."""
import os

from drawn import SHOWN
from harness import case, check, lines, shown
from shown_demands import FIB, USAGE

UNSEEN = "(What is computed after the last turn of the policy isn't seen.)\n"
FIRST = """asks for the value at 0
  computes f at 0: 0
writes 0   (1 computed, 0 found)
asks for the value at 1
  computes g at 0: 1
  computes f at 1: 1
writes 1   (3 computed, 0 found)
"""
# of the two sides of `+` the left one is looked for first
KEPT = FIRST + """asks for the value at 2
  finds f at 0: 0
  finds g at 0: 1
  computes g at 1: 1
writes 1   (4 computed, 2 found)
""" + UNSEEN
BESIDE = "usage: lucid_show --steps takes no --at, --as or --names: these are for one value\n"
ALONE = "usage: lucid_show takes --count, --policy, --age and --room with --steps alone\n"


@case
def what_is_kept_is_found(run):
    run.source(FIB)
    run.showing().lucid("--steps", "--count=3", "p").must(KEPT)
    run.showing().lucid("--steps", "--policy", "keep", "--count", "3", "p").must(KEPT)


@case
def what_there_is_no_room_for_is_dropped(run):
    """Three values are held when a demand begins: the one that was looked at longest ago goes, and so on."""
    run.source(FIB)
    run.showing().lucid("--steps", "--count=3", "--policy=last", "--room=2", "p").must(FIRST + """asks for the value at 2
  drops f at 0
  finds g at 0: 1
  computes f at 0: 0
  drops f at 1
  computes g at 1: 1
  drops g at 0
writes 1   (5 computed, 1 found)
""" + UNSEEN)


@case
def a_store_of_nothing_finds_nothing(run):
    run.source(FIB)
    run.showing().lucid("--steps", "--count=2", "--policy=none", "p").must("""asks for the value at 0
  computes f at 0: 0
writes 0   (1 computed, 0 found)
asks for the value at 1
  drops f at 0
  computes g at 0: 1
  drops g at 0
writes 1   (2 computed, 0 found)
""" + UNSEEN)


@case
def what_was_looked_at_lately_stays(run):
    """By age nothing is dropped before the second sweep, which comes after 2,000 turns."""
    run.source(FIB)
    run.showing().lucid("--steps", "--count=3", "--policy=age", "--age=1", "p").must(KEPT)
    run.source("n where n = 0 fby n + 1; end")
    out = run.showing().lucid("--steps", "--count=3000", "--policy=age", "--age=1", "--cells=100000", "p").must().out.decode()
    check("\n  drops n at 0\n" in out, shown(out[-400:]))
    out = run.showing().lucid("--steps", "--count=100", "--policy=age", "--age=1", "--cells=100000", "p").must().out.decode()
    check("drops" not in out, shown(out[-400:]))


@case
def a_block_that_remembers_its_time_has_a_context(run):
    run.source("a where n = 0 fby n + 1; a = b where m is current n; b = m + 1; end; end")
    run.showing().lucid("--steps", "--count=1", "p").must("""asks for the value at 0
  computes n at 0: 0
  computes m at 0 in context 1: 0
  computes b at 0 in context 1: 1
writes 1   (3 computed, 0 found)
""" + UNSEEN)


@case
def a_call_has_a_context(run):
    # the second x is asked for when the first has its value
    run.source("n where n = twice(3); twice(x) = x + x; end")
    run.showing().lucid("--steps", "--count=1", "p").must("""asks for the value at 0
  computes x at 0 in context 1: 3
  finds x at 0 in context 1: 3
  computes twice at 0 in context 1: 6
writes 6   (2 computed, 1 found)
""" + UNSEEN)


@case
def an_input_is_read(run):
    run.source("s where s = a fby s + next a; end")
    run.showing().lucid("--steps", "--count=2", "p", given="7\n8\n9\n").must("""asks for the value at 0
  computes s at 0: 7
writes 7   (1 computed, 0 found)
asks for the value at 1
  finds s at 0: 7
writes 15   (1 computed, 1 found)
""" + UNSEEN)
    run.write("these", "7\n8\n9\n")
    run.showing().lucid("--steps", "--count=1", "p", "a=these").must("asks for the value at 0\nwrites 7   (0 computed, 0 found)\n" + UNSEEN)


@case
def values_that_are_left_out_are_counted(run):
    run.source(FIB)
    run.showing().lucid("--steps", "--count=3", "--cells=2", "p").must("""asks for the value at 0
  computes f at 0: 0
writes 0   (1 computed, 0 found)
asks for the value at 1
  computes g at 0: 1
writes 1   (2 computed, 0 found, 1 left out)
asks for the value at 2
writes 1   (2 computed, 0 found, 4 left out)
""" + UNSEEN + ".. (values left out: 4)\n")


@case
def long_values_are_shortened(run):
    run.source('n where n = `abcdefghijklmnopqrstuvwxyz\' fby n; end')
    run.showing().lucid("--steps", "--count=2", "p").must("""asks for the value at 0
  computes n at 0: `abcdefghijklmnopqrs.. (28 bytes)
writes `abcdefghijklmnopqrs.. (28 bytes)   (1 computed, 0 found)
asks for the value at 1
  finds n at 0: `abcdefghijklmnopqrs.. (28 bytes)
  computes n at 1: `abcdefghijklmnopqrs.. (28 bytes)
writes `abcdefghijklmnopqrs.. (28 bytes)   (2 computed, 1 found)
""" + UNSEEN)


@case
def names_have_numbers_where_the_program_comes_from_a_pipe(run):
    os.mkfifo(run.path("pipe"))
    showing = run.showing()
    child = showing.start(["--steps", "--count=2", "pipe"])
    run.write("pipe", "n where n = 0 fby n; end")
    showing.ended(child).must("""asks for the value at 0
  computes name 0 at 0: 0
writes 0   (1 computed, 0 found)
asks for the value at 1
  finds name 0 at 0: 0
  computes name 0 at 1: 0
writes 0   (2 computed, 1 found)
""" + UNSEEN)


@case
def the_lines_are_those_of_the_run(run):
    run.source(FIB, "fib")
    run.source("n where n = 0 fby fact(n) + 1; fact(x) = if x < 2 then 1 else x * fact(x - 1) fi; end", "calls")
    run.source("a where n = 0 fby n + 1; a = b asa b > 3 where m is current n; b = m fby b + 1; end; end", "nested")
    for program in ["fib", "calls", "nested"]:
        for policy in ["keep", "last", "age", "none"]:
            words = [f"--policy={policy}", "--room=3", "--age=1", "--count=5", program]
            wanted = run.lucid(*words).must().out.decode()
            out = run.showing().lucid("--steps", *words).must().out.decode()
            said = [it.split("   (")[0].removeprefix("writes ") for it in out.splitlines() if it.startswith("writes ")]
            check(lines(*said) == wanted, f"{words}: {shown(said)}, not {shown(wanted)}")


@case
def each_program_that_is_drawn_is_run_step_by_step(run):
    """Its lines are those of the run, and its figures count its own lines of values."""
    for name, (source, _, inputs) in SHOWN.items():
        run.source(source, "q")
        for file, text in inputs.items():
            run.write(file, text)
        words = ["--count=4", "q", *(f"{it}={it}" for it in inputs)]
        ended = run.lucid(*words)
        told = run.showing().lucid("--steps", "--cells=1000000", *words)
        check(told.status == ended.status, f"{name}: {told.status}, not {ended.status}")
        written, computed, found = [], 0, 0
        for it in told.out.decode().splitlines():
            computed, found = computed + it.startswith("  computes "), found + it.startswith("  finds ")
            if it.startswith("writes "):
                line, _, figures = it.removeprefix("writes ").rpartition("   (")
                check(figures == f"{computed} computed, {found} found)", f"{name}: {it}")
                written.append(line)
        wanted = ended.out.decode().splitlines()
        check(len(written) == len(wanted) and computed > 0, f"{name}: {shown(written)}, not {shown(wanted)}")
        check(all(a == b or ".. (" in a for a, b in zip(written, wanted)), f"{name}: {shown(written)}, not {shown(wanted)}")


@case
def reports_and_statuses_are_those_of_the_run(run):
    run.source("x where x = x + 1; end")
    run.showing().lucid("--steps", "--depth=3", "p").must("asks for the value at 0\n", 5, "too deep at time 0\n")
    run.source("n where n = ; end")
    run.showing().lucid("--steps", "p").must("", 1, "syntax at 12\n")
    run.showing().lucid("--steps", "q").must("", 3, "read fault\n")
    run.source("a + b")
    run.showing().lucid("--steps", "p").must("", 1, "no input for two names\n")
    run.source(FIB)
    run.showing().lucid("--steps", "p", "c=p").must("", 2, "no input is named c\n")


@case
def options_that_do_not_go_together(run):
    run.source(FIB)
    for words in [["--at", "1"], ["--as=grid"], ["--names", "f"], ["--at=1", "--names=f"]]:
        run.showing().lucid("--steps", *words, "p").must("", 2, BESIDE)
    for words in [["--count", "1"], ["--policy=keep"], ["--age", "1"], ["--room=1"], ["--at=1", "--count=1"]]:
        run.showing().lucid(*words, "p").must("", 2, ALONE)
    for words in [["--count=0"], ["--policy=most"], ["--cells=0"], ["--room", "x"], ["--steps"], ["--print"], ["--stats"]]:
        run.showing().lucid("--steps", *words, "p").must("", 2, USAGE)
    run.showing().lucid("--steps").must("", 2, USAGE)
    run.showing().lucid("--steps=1", "p").must("", 2, USAGE)
