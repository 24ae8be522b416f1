"""Sources and words that nobody means, explained: bytes that are no text, long lines, words and names, and what is too large."""
from harness import case, check, long_case, shown

OTHER_BYTES = "Only in comments may other bytes stand than printable ASCII, tabs and line ends. A name has the letters a to z and A to Z, digits and `_`.\n"
WHAT_MAY_STAND = "Here the source ends.\nWhat may stand here: a name, a number, `(`, `if`.\nAn expression is missing before this.\n"

BYTES = [
    (b"\xff\x00\x1b[31m", "bad byte at 0\np:1:1:\n???[31m\n^\n" + OTHER_BYTES),
    (b"// \xc3\xa4\n1 +\t\xc3\xa4\r\n", "bad byte at 10\np:2:5:\n1 + ?? \n    ^\n" + OTHER_BYTES),
    (b"1 +\n", "syntax at 4\np:2:1:\n\n^\n" + WHAT_MAY_STAND),
    (b"1 +", "syntax at 3\np:1:4:\n1 +\n   ^\n" + WHAT_MAY_STAND),
]


def explained(run, source, *words):
    run.source(source)
    return run.explaining().lucid(*(words or ["p"]))


@case
def bytes_that_are_no_text(run):
    for source, report in BYTES:
        explained(run, source).must("", 1, report)


@case
def of_a_long_line_a_part_is_shown(run):
    # 79 bytes of the line stand before the place, and 80 behind it
    shown_part = "a+" * 40 + "/" + "+b" * 39 + "+\n" + " " * 80
    hint = "^\nDivision is `div`, and what it leaves over is `mod`. A comment begins with `//`.\n"
    explained(run, "a+" * 100 + "/" + "+b" * 100).must("", 1, "bad byte at 200\np:1:201:\n" + shown_part + hint)


def report_of(run, source):
    """What is reported of a source that is refused; that is short."""
    report = explained(run, source).must("", 1).report.decode()
    check(len(report) <= 500, f"{len(report)} bytes are reported")
    return report


@case
def a_line_of_a_mebibyte(run):
    report = report_of(run, " " * 1_048_575 + "/")
    check(report.startswith("bad byte at 1048575\np:1:1048576:\n"), shown(report))


@case
def a_source_too_long(run):
    report = report_of(run, " " * 1_048_576 + "/")
    check(report == "source too long\nA source has at most 1,048,576 bytes.\n", shown(report))


@case
def a_tree_too_deep(run):
    report = report_of(run, "not " * 400 + "true")
    check(report.startswith("too nested at 1600\np:1:1601:\n"), shown(report))
    check(report.endswith("give an inner part a name of its own behind `where`.\n"), shown(report))


@case
def too_many_names(run):
    # each of these plain names is the next one
    source = "n0 where " + "".join(f"n{k} = n{k + 1}; " for k in range(2_001)) + "end"
    explained(run, source, "--cycles", "p").must("", 1, "too many names\n`--cycles` judges programs of at most 2,000 plain names.\n")


@case
def a_long_word(run):
    # a word of 200 bytes, one of which isn't printable
    report = explained(run, "1", "--\x1b" + "x" * 197).must("", 2).report.decode()
    said = "This word doesn't go with those before it: --?" + "x" * 157 + "\nThe line above has the options, each of which is given once at most; "
    said += "of --print, --columns, --cycles, --why, --check, --flat and --from-flat one alone is given. --columns has names with commas between them, as n,m, and --why a time.\n"
    check(report.endswith(said), shown(report))


@long_case
def an_input_too_large(run):
    run.source("a")
    ended = run.explaining().shell("yes 1 | tr -d '\\n' | \"$LUCID\" p")
    said = "An element of this input that is needed ends past the bytes of it that may be read, 268,435,456.\n"
    ended.must("", 6, "input a too large\n" + said)


@case
def names_that_are_long(run):
    # a name of 200 bytes is told by its first 160
    name = "x" * 160 + ".."
    said = f"""no input for two names
A name that nothing defines is an input. One of them may be read from the standard input; give each other a file: {name}=FILE y=FILE
{name} stands first in line 1, column 1.
y stands first in line 1, column 204.
If a word is meant, it stands between two ", as in "red".
"""
    explained(run, "x" * 200 + " + y").must("", 1, said)


@case
def parameters_that_are_many(run):
    # of a function the first twenty parameters are told
    names = [f"a{k}" for k in range(30)]
    said = f"""wrong number of arguments at 0: 30 wanted, 1 given
p:1:1:
f(1) where
^
A call has as many arguments as the function has parameters.
f({', '.join(names[:20])}, ..) is defined in line 2, column 1.
"""
    explained(run, f"f(1) where\nf({', '.join(names)}) = a0; end").must("", 1, said)
