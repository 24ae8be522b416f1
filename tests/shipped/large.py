"""Large runs and their figures; the heaviest text and the deepest tree; a source that is cut after each of its bytes."""
from harness import case, check, lines, long_case, shown

COUNTING = "x where x = 0 fby x + 1; end"
FIBONACCI = "f where f = 0 fby g; g = 1 fby f + g; end"
NESTED_CURRENT = "m where m is current n; end where n is current k; end where k = 0 fby k + 1; end"


def fibonacci_numbers(count):
    numbers, present, following = [], 0, 1
    for _ in range(count):
        numbers.append(present)
        present, following = following, present + following
    return numbers


@case
def two_names_that_need_each_other(run):
    numbers = fibonacci_numbers(94)
    check([numbers[90], numbers[92], numbers[93]] == [2880067194370816120, 7540113804746346429, 12200160415121876738], "the numbers")
    run.source(FIBONACCI)
    run.lucid("--policy", "keep", "--count", "94", "--stats", "p").must(lines(*numbers), report="lines 94 held 187 lost 0 cleared 0\n")


@case
def a_large_made_program(run):
    # below time 1,001 the value of the last name doubles at each time
    powers = lines(*(pow(2, time, 1000) for time in range(200)))
    run.lucid("--make", "1000", "--count", "200").must(powers, report="lines 200 held 20901 lost 0 cleared 0\n")


@long_case
def a_long_search(run):
    # without kept positions it takes some 5,000,000,000 looks at `true`
    run.source("x upon true where x = 0 fby x + 1; end")
    run.lucid("--count", "100000", "--stats", "p").must(lines(*range(100_000)), report="lines 100000 held 100000 lost 0 cleared 0\n")


@case
def a_store_that_forgets_by_age(run):
    # a sweep comes each 1,000 turns, and what it leaves was touched after the last sweep but one; a turn touches one value at most
    run.source(COUNTING)
    ended = run.lucid("--policy", "age", "--age", "1", "--count", "10000", "--stats", "p")
    check((ended.status, ended.out.decode()) == (0, lines(*range(10_000))), f"{ended.status}, {shown(ended.out)}")
    words = ended.report.decode().split(" ")
    check(words[:3] + words[4:] == ["lines", "10000", "held", "lost", "0", "cleared", "0\n"], shown(ended.report))
    check(int(words[3]) <= 2001, f"{words[3]} are held")


@long_case
def a_long_run_that_is_cleared(run):
    # Each line enters two contexts. With the empty one 1,000,001 are known after line 500,000, and all is cleared. After the clearing `k` has
    # to be evaluated from time 0 on, 500,000 references deep.
    run.source(NESTED_CURRENT)
    ended = run.lucid("--count", "500002", "--depth", "1000000", "--stats", "p")
    ended.must(lines(*range(500_002)), report="lines 500002 held 500006 lost 0 cleared 1\n")


@long_case
def too_deep_after_a_clearing(run):
    run.source(NESTED_CURRENT)
    ended = run.lucid("--count", "500002", "--depth", "100000", "--stats", "p")
    ended.must(lines(*range(500_000)), 5, "too deep at time 500000 lost 0 cleared 1\n")


@case
def depth_of_a_tree(run):
    run.source("not " * 399 + "true")
    run.lucid("--count", "1", "p").must("false\n")
    run.source("not " * 400 + "true")
    run.lucid("--count", "1", "p").must("", 1, "too nested at 1600\n")


@case
def weight_of_a_text(run):
    # the line at time 15 has 32,768 letters; a text of twice as many is too heavy
    run.source("x where x = `a' fby x ^ x; end")
    run.lucid("--count", "18", "p").must(lines(*(f"`{'a' * 2**time}'" for time in range(16)), "error", "error"))


@case
def a_source_too_long(run):
    run.source(" " * 1_048_577)
    run.lucid("p").must("", 1, "source too long\n")


@long_case
def inputs_tables_and_certificates_without_end(run):
    run.source("a")
    run.shell("yes 1 | tr -d '\\n' | \"$LUCID\" p").must("", 6, "input a too large\n")
    run.lucid("--from-flat", "/dev/zero").must("", 1, "source too long\n")
    run.source("7")
    run.lucid("--check", "/dev/zero", "p").must("", 1, "certificate too long\n")


SALES = """total :: largest :: [] where // sales
total = sale fby total + next sale; largest = sale fby if next sale > largest then next sale else largest fi; end"""

# What comes of the first bytes of it, by how many they are; of all others `syntax at` their number.
CUT = {
    **dict.fromkeys((*range(10, 18), 22, 23), "no input for two names"),
    7: "bad byte at 6",
    18: "bad byte at 17",
    21: "bad byte at 20",
    30: "bad byte at 29",
    **dict.fromkeys(range(24, 28), "syntax at 23"),
    **dict.fromkeys((52, 53), "syntax at 51"),
    65: "syntax at 63",
    **dict.fromkeys((90, 91), "syntax at 89"),
    98: "syntax at 96",
    **dict.fromkeys(range(117, 120), "syntax at 116"),
    123: "syntax at 121",
    **dict.fromkeys(range(132, 135), "syntax at 131"),
    145: "syntax at 144",
}

WRITTEN = {
    **dict.fromkeys(range(1, 7), lines(120, 80, 200)),
    151: "[% 120 120 %]\n[% 200 120 %]\n[% 400 200 %]\n",
}


@case
def cut_sources(run):
    check(len(SALES) == 151, f"{len(SALES)} bytes")
    for length in range(1, 152):
        run.source(SALES[:length])
        ended = run.lucid("p", given="120\r\n80\r\n200\r\n")
        if length in WRITTEN:
            ended.must(WRITTEN[length])
        else:
            ended.must("", 1, CUT.get(length, f"syntax at {length}") + "\n")
