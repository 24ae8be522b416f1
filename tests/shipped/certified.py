"""Certificates that are right, and wrong ones with the judgment that is told; certificates that are made, with the value that is wanted.

Each row is worked out by hand from the rules of certificates.
"""
from harness import case, check, lines, shown

FILES = {"a": lines(4, 5), "b": lines(1, 2, 3)}

# Programs, the inputs that they have, and certificates of their values.
RIGHT = [
    ("7", "", "j 0 0 5 0 0 7\n"),
    ("7", "", "j 0 0 5 0 0 7\nj 0 0 5 0 0 7\n"),
    ("7", "", "z 2 0\nj 0 0 5 0 0 7\n"),
    ("7", "", "c 0 0 0\nj 0 0 5 0 0 7\n"),
    ("first next a", "a", "j 0 0 1 0 0 5\nj 1 0 0 0 1 0 5\nj 2 0 3 0 1 1 5\n"),
    ("a + b", "ab", "j 0 0 2 0 0 eod\nj 1 0 2 0 0 3\nj 2 0 2 0 2 0 1 eod\n"),
    ("1 + 1", "", "j 0 0 0 0 0 1\nj 1 0 0 0 0 1\nj 2 0 0 0 2 0 1 2\n"),
    ("true and (false or eod)", "", "j 0 0 0 0 0 true\nj 1 0 0 0 0 false\nj 2 0 0 0 0 eod\nj 3 0 0 0 2 1 2 eod\nj 4 0 0 0 2 0 3 eod\n"),
    ("false and 1", "", "j 0 0 0 0 0 false\nj 2 0 0 0 1 0 false\n"),
    ("if 3 then 1 else 2 fi", "", "j 0 0 0 0 0 3\nj 3 0 0 0 1 0 error\n"),
    ("hd(x) where x = [% 1 [% %] dog %]; end", "", "j 2 0 0 0 0 [% 1 [% %] dog %]\nj 0 0 0 0 1 0 [% 1 [% %] dog %]\nj 1 0 0 0 1 1 1\n"),
    (
        "initial succ p where p = 0 sby p + 1; end",
        "",
        "j 3 0 0 0 0 0\nj 7 0 0 0 1 0 0\nj 4 0 0 0 1 1 0\nj 5 0 0 0 0 1\nj 6 0 0 0 2 2 3 1\nj 7 0 0 1 1 4 1\nj 0 0 0 1 1 5 1\nj 1 0 0 0 1 6 1\nj 2 0 0 0 1 7 1\n",
    ),
    ("5 whenever true", "", "j 1 0 0 0 0 true\nj 1 0 1 0 0 true\nj 0 0 1 0 0 5\nj 2 0 1 0 3 0 1 2 5\n"),
    ("5 asa true", "", "j 1 0 0 0 0 true\nj 0 0 0 0 0 5\nj 2 0 3 0 2 0 1 5\n"),
    ("5 upon false", "", "j 1 0 0 0 0 false\nj 0 0 0 0 0 5\nj 2 0 1 0 2 0 1 5\n"),
    ("5 attime 1", "", "j 1 0 3 0 0 1\nj 0 0 1 0 0 5\nj 2 0 3 0 2 0 1 5\n"),
    ("5 atspace 1", "", "j 1 0 3 0 0 1\nj 0 0 3 1 0 5\nj 2 0 3 0 2 0 1 5\n"),
    (
        "f(y) where f(a) = x where x is current a; end; y = 1 fby y + 2; end",
        "",
        "c 0 0 0\nz 1 1\nj 5 0 0 0 0 1\nj 9 0 0 0 1 0 1\nj 6 0 0 0 1 1 1\nj 7 0 0 0 0 2\nj 8 0 0 0 2 2 3 3\nj 9 0 1 0 1 4 3\nj 0 0 1 0 1 5 3\nj 3 1 1 0 1 6 3\nj 2 2 1 0 1 7 3\nj 4 1 1 0 1 8 3\nj 1 0 1 0 1 9 3\n",
    ),
]

# Programs, their inputs, and texts that are no certificates of them, with the judgment that is wrong.
WRONG = [
    # another value; a use too many, too few; a later judgment; itself
    ("7", "", "j 0 0 5 0 0 8\n", 0),
    ("7", "", "j 0 0 5 0 0 7\nj 0 0 5 0 1 0 7\n", 1),
    ("1 + 1", "", "j 0 0 0 0 0 1\nj 1 0 0 0 0 1\nj 2 0 0 0 1 0 2\n", 2),
    ("1 + 1", "", "j 1 0 0 0 0 1\nj 2 0 0 0 2 2 0 2\nj 0 0 0 0 0 1\n", 1),
    ("1 + 1", "", "j 2 0 0 0 1 0 2\n", 0),
    # another node with an equal expression; the other order
    ("1 + 1", "", "j 0 0 0 0 0 1\nj 1 0 0 0 0 1\nj 2 0 0 0 2 0 0 2\n", 2),
    ("1 + 1", "", "j 0 0 0 0 0 1\nj 1 0 0 0 0 1\nj 2 0 0 0 2 1 0 2\n", 2),
    # a use at another time, at another space, in another context
    ("next a", "a", "j 0 0 2 0 0 eod\nj 1 0 2 0 1 0 eod\n", 1),
    ("succ 7", "", "j 0 0 0 0 0 7\nj 1 0 0 0 1 0 7\n", 1),
    ("1 + 1", "", "z 0 0\nj 0 1 0 0 0 1\nj 1 0 0 0 0 1\nj 2 0 0 0 2 0 1 2\n", 2),
    # an element that isn't the input's; with a use
    ("a + b", "ab", "j 0 0 1 0 0 4\n", 0),
    ("first a", "a", "j 0 0 0 0 0 4\nj 0 0 0 0 1 0 4\n", 1),
    # a node that isn't the program's; a context that isn't there, or isn't good, or has a call place that isn't the program's
    ("7", "", "j 1 0 5 0 0 7\n", 0),
    ("7", "", "j 0 1 5 0 0 7\n", 0),
    ("7", "", "z 2 0\nz 0 0\nj 0 1 5 0 0 7\n", 0),
    ("7", "", "c 0 0 0\nj 0 1 5 0 0 7\nj 0 0 5 0 0 7\n", 0),
    # the last isn't the root, in the empty context, at space 0
    ("1 + 1", "", "j 0 0 0 0 0 1\nj 1 0 0 0 0 1\n", 1),
    ("7", "", "z 0 0\nj 0 1 5 0 0 7\n", 0),
    ("7", "", "j 0 0 5 1 0 7\n", 0),
]

# Texts that are none, with the line that is refused.
NO_TEXTS = [
    ("", 1),
    ("z 0 0\n", 2),
    ("j 0 0 0 0 0 5", 1),
    ("j 0 0 0 0 0 5\n\n", 2),
    ("j 0 0 0 0 0 5\nz 0 0\n", 2),
    ("j 0 0 0 0 0 05\n", 1),
    ("j 0 0 0 0 0  5\n", 1),
    ("j 0 0 0 0 0 5 \n", 1),
    ("j 0 0 0 0 1 5\n", 1),
    ("j 0 0 0 0 2 0 5\n", 1),
    ("j 0 0 0 0 0\n", 1),
    ("j 4294967296 0 0 0 0 5\n", 1),
    ("j 0 0 9223372036854775808 0 0 5\n", 1),
    ("z 0 9223372036854775808\n", 1),
    ("c 0 0\n", 1),
    ("j 0 0 0 0 0 [% 1  2 %]\n", 1),
]

# Programs, times and their values: a search, nested times, a recursive function, two calls of one function, names that need each other.
VALUES = [
    ("x where x = 0 fby x + 1; end", 4, 4),
    ("f where f = 0 fby g; g = 1 fby f + g; end", 30, 832_040),
    ("n whenever n mod 3 eq 0 where n = 0 fby n + 1; end", 3, 9),
    ("f asa i eq n where n is current k; i = 0 fby i + 1; f = 1 fby f * (i + 1); end where k = 0 fby k + 1; end", 3, 6),
    ("fact(n) where fact(n) = if n eq 0 then 1 else n * fact(n - 1) fi; n = 0 fby n + 1; end", 4, 24),
    ("sum(x) + sum(y) where sum(z) = s where s = z fby s + next z; end; x = 1 fby x + 1; y = 10; end", 2, 36),
]

# What leads nowhere, or to itself.
TOO_DEEP = [
    "x where x = x; end",
    "5 asa false",
    "x where x = y; y = x + 1; end",
]

UP = "x where x = 0 fby x + 1; end"

# Why a count is 2 at time 2.
WHY = "j 1 0 0 0 0 0\nj 5 0 0 0 1 0 0\nj 2 0 0 0 1 1 0\nj 3 0 0 0 0 1\nj 4 0 0 0 2 2 3 1\nj 5 0 1 0 1 4 1\nj 2 0 1 0 1 5 1\nj 3 0 1 0 0 1\nj 4 0 1 0 2 6 7 2\nj 5 0 2 0 1 8 2\nj 0 0 2 0 1 9 2\n"


def words_of(run, source, inputs):
    """Writes the program and its inputs, and returns the words that name them."""
    run.source(source)
    return ["p", *(f"{it}={run.write(it, FILES[it])}" for it in inputs)]


def end_of(text):
    """What `--check` tells of a certificate that is right: the value and the time of its last judgment."""
    words = text.splitlines()[-1].split(" ")
    return f"{' '.join(words[6 + int(words[5]) :])} at {words[3]}\n"


def checked(run, words, text):
    run.write("w", text)
    return run.lucid("--check", "w", *words)


@case
def right_certificates(run):
    for source, inputs, text in RIGHT:
        checked(run, words_of(run, source, inputs), text).must(end_of(text))


@case
def wrong_certificates(run):
    for source, inputs, text, judgment in WRONG:
        checked(run, words_of(run, source, inputs), text).must("", 1, f"judgment {judgment} does not follow\n")


@case
def texts_that_are_none(run):
    for text, line in NO_TEXTS:
        checked(run, words_of(run, "7", ""), text).must("", 1, f"line {line} is no judgment\n")


def made(run, words, time):
    """The certificate that is made of a value at a time; it is found right, and is of that time."""
    text = run.lucid("--why", str(time), "--depth", "1000", *words).must().out.decode()
    checked(run, words, text).must(end_of(text))
    check(end_of(text).endswith(f" at {time}\n"), f"{shown(words)}: {shown(end_of(text))}")
    return text


@case
def made_as_written(run):
    for source, inputs, text in RIGHT:
        time = int(end_of(text).rsplit(" ", 1)[1])
        own = made(run, words_of(run, source, inputs), time)
        check(end_of(own) == end_of(text), f"{source}: {shown(own)}")


@case
def made_with_values(run):
    for source, time, value in VALUES:
        own = made(run, words_of(run, source, ""), time)
        check(end_of(own) == f"{value} at {time}\n", f"{source}: {shown(own)}")


@case
def none_of_what_is_too_deep(run):
    for source in TOO_DEEP:
        run.source(source)
        run.lucid("--why", "3", "--depth", "1000", "p").must("", 5, "too deep at time 3\n")


@case
def each_digit_raised(run):
    # what is right still has the same last value
    words = words_of(run, UP, "")
    checked(run, words, WHY).must("2 at 2\n")
    for at, byte in enumerate(WHY):
        if byte in "012345678":
            ended = checked(run, words, WHY[:at] + str(int(byte) + 1) + WHY[at + 1 :])
            check(ended.status == 1 or ended.status == 0 and ended.out.startswith(b"2 at "), f"at {at}: {ended.status}, {shown(ended.out)}")


@case
def each_cut(run):
    # cut at each byte but the last it isn't right
    words = words_of(run, UP, "")
    for end in range(len(WHY)):
        checked(run, words, WHY[:end]).must("", 1)


@case
def an_element_past_the_bytes_that_may_be_read(run):
    # it is told before its value is looked at, and not where the judgment has a use
    words = words_of(run, "first a", "a")
    with open(run.path("a"), "wb") as it:
        it.write(b"4\n5")
        it.truncate(268_435_460)
    checked(run, words, "j 0 0 1 0 0 7\n").must("", 6, "input a too large\n")
    checked(run, words, "j 0 0 0 0 0 4\nj 0 0 1 0 1 0 5\n").must("", 1, "judgment 1 does not follow\n")


@case
def a_false_and_a_short_certificate(run):
    words = words_of(run, VALUES[3][0], "")
    text = run.lucid("--why", "3", *words).must().out.decode()
    checked(run, words, text).must("6 at 3\n")
    checked(run, words, text[:-1]).must("", 1, "line 65 is no judgment\n")
    check(text.endswith(" 6\n"), shown(text))
    checked(run, words, text[:-2] + "7\n").must("", 1, "judgment 63 does not follow\n")
