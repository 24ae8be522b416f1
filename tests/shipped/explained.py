"""The command that explains its reports, over real files and pipes."""
import os
import pty

from harness import Skipped, case, check, lines, shown

UP = "x where x = 0 fby x + 1; end"
STANDING = "What may stand here: `;`, `where`, an operator.\nEach definition ends with `;`, the last one before `end` too.\n"


@case
def output_and_status_are_those_of_the_command(run):
    run.source(UP)
    run.explaining().lucid("p", "--count=3").must(lines(0, 1, 2))
    run.source("x where x = x; end", "deep")
    run.lucid("deep").must("", 5, "too deep at time 0\n")
    ended = run.explaining().lucid("deep").must("", 5)
    check(ended.report.startswith(b"too deep at time 0\n`--cycles` says: cycle x at 8: sum 0\n"), shown(ended.report))


@case
def a_source_is_explained(run):
    run.source("x where\n  x = 1 end\n")
    text = "syntax at 16\np:2:9:\n  x = 1 end\n        ^\nHere stands `end`.\n" + STANDING
    run.explaining().lucid("p").must("", 1, text)


DIVISION = "Division is `div`, and what it leaves over is `mod`. A comment begins with `//`.\n"


@case
def a_pipe_is_explained(run):
    os.mkfifo(run.path("pipe"))
    ended = run.explaining().shell("printf '1 / 2' > pipe & exec \"$LUCID\" pipe")
    ended.must("", 1, "bad byte at 2\npipe:1:3:\n1 / 2\n  ^\n" + DIVISION)


@case
def long_lines_of_an_input_are_read_whole(run):
    run.source("a")
    run.write("f", lines("`" + "x" * 1000 + "'", "`" + "y" * 256 + "'", 1))
    run.explaining().lucid("p", "a=f").must(lines("`" + "x" * 1000 + "'", "`" + "y" * 256 + "'", 1), 0, "")


@case
def a_column_that_is_missing(run):
    run.source("x where x = 1; end")
    said = "A column is a name that the program's outermost block defines without parameters.\nx is defined in line 1, column 9.\n"
    run.explaining().lucid("p", "--columns=y").must("", 1, "no column y\n" + said)


def at_a_terminal(run, words, output):
    """The call reads the line 7 from a terminal, and tells before it which input that is."""
    run.source("a + 1")
    keyboard, terminal = pty.openpty()
    explaining = run.explaining()
    child = explaining.start(words, stdin=terminal)
    os.close(terminal)
    said = child.stderr.readline() + child.stderr.readline()
    os.write(keyboard, b"7\n\x04")
    ended = explaining.ended(child).must(output, 0, "")
    os.close(keyboard)
    wanted = b'The input a is read from here, a value on each line.\nIf no input is meant: define the name, or write a word between two ", as in "red".\n'
    check(said == wanted, shown(said) + ended.words)


@case
def a_terminal_is_told_of_before_a_run(run):
    at_a_terminal(run, ["p"], lines(8))


@case
def a_terminal_is_told_of_before_a_certificate_is_made(run):
    at_a_terminal(run, ["--why=0", "p"], lines("j 0 0 0 0 0 7", "j 1 0 0 0 0 1", "j 2 0 0 0 2 0 1 8"))


@case
def files_that_cannot_be_read_are_named(run):
    run.explaining().lucid("none").must("", 3, "read fault\nThis file can't be opened or read: none\n")
    run.source("a")
    run.explaining().lucid("p", "a=none").must("", 3, "read fault\nThis file can't be opened or read: none\n")
    run.explaining().lucid("my programs/none here").must("", 3, "read fault\nThis file can't be opened or read: my programs/none here\n")


WRITTEN = "A program stands in a file: put this into one, say program.lucid, and give its name. The values of an input stand in a file too.\n"


@case
def a_program_in_place_of_its_file_is_told(run):
    program = "n where n = 0 fby n + 1; end"
    run.explaining().lucid(program).must("", 3, f"read fault\nThis file can't be opened or read: {program}\n" + WRITTEN)
    run.source("a")
    run.explaining().lucid("p", "a=1 2 3").must("", 3, "read fault\nThis file can't be opened or read: 1 2 3\n" + WRITTEN)


@case
def a_line_of_a_mebibyte(run):
    run.source(" " * 1048575 + "/")
    text = "bad byte at 1048575\np:1:1048576:\n" + " " * 80 + "/\n" + " " * 80 + "^\n"
    ended = run.explaining().lucid("p").must("", 1)
    check(ended.report.startswith(text.encode()), shown(ended.report))
    check(len(ended.report) < 1000, f"{len(ended.report)} bytes are reported")


@case
def bytes_that_are_no_text(run):
    run.source(b"\xff\x00\x1b[31m")
    text = "bad byte at 0\np:1:1:\n???[31m\n^\nOnly in comments may other bytes stand than printable ASCII, tabs and line ends. A name has the letters a to z and A to Z, digits and `_`.\n"
    run.explaining().lucid("p").must("", 1, text)


NO_VALUE = " of this input is no value, or it is `error` itself. A value is an integer, as -12, a word without quotes, as red, a string, as `two words', a list, as [% 1 2 %], `true` or `false`. Of an input x, `x whenever not iserror x` has the other lines, and `x whenever not iserror x and isint x` the integers.\n"

AT_NO_PLACE = "Where the values came from isn't told: the standard input can't be read again. With NAME=FILE an input has a file.\n"


@case
def an_error_is_traced(run):
    run.source("t where t = a fby t + next a; end")
    run.write("f", "1\n2.50\n3\n")
    said = "The value at time 1 is `error`.\nt at time 1 is `error`.\na at time 1 is `error`.\np:1:28:\nt where t = a fby t + next a; end\n" + " " * 27 + "^\n"
    line = "Line 2" + NO_VALUE + "The line is: 2.50\nAs a string it is written `2.50'.\n"
    run.explaining().lucid("p", "a=f").must(lines(1, "error", "error"), 0, said + line)


@case
def the_first_error_is_traced(run):
    run.source("t where t = (hd 1) fby t; end")
    said = "The value at time 0 is `error`.\nt at time 0 is `error`.\np:1:14:\nt where t = (hd 1) fby t; end\n" + " " * 13 + "^\nAt time 0 `hd` gets 1: it wants a list.\nThe first value of a stream n is `first n`.\n"
    run.explaining().lucid("p", "--count=3").must(lines("error", "error", "error"), 0, said)


@case
def an_error_of_a_piped_program_is_traced(run):
    os.mkfifo(run.path("pipe"))
    said = "The value at time 0 is `error`.\nt at time 0 is `error`.\npipe:1:14:\nt where t = (hd 1) fby t; end\n" + " " * 13 + "^\nAt time 0 `hd` gets 1: it wants a list.\nThe first value of a stream n is `first n`.\n"
    ended = run.explaining().shell("printf 't where t = (hd 1) fby t; end' > pipe & exec \"$LUCID\" --count=1 pipe")
    ended.must(lines("error"), 0, said)


@case
def an_error_by_the_standard_input_has_no_place(run):
    run.source("hd a")
    said = 'The input a is read from here, a value on each line.\nIf no input is meant: define the name, or write a word between two ", as in "red".\n'
    run.explaining().lucid("p", given=b"1\n").must(lines("error"), 0, AT_NO_PLACE + said)


@case
def an_error_by_a_pipe_is_not_traced(run):
    run.source("hd a")
    os.mkfifo(run.path("pipe"))
    run.explaining().shell("printf '1\\n' > pipe & exec \"$LUCID\" p a=pipe").must(lines("error"), 0, "")


@case
def an_empty_input_is_told_of(run):
    run.source("a + 1")
    run.write("f", "")
    said = "The value at time 0 is `eod`, the end of data: a run ends before it.\na at time 0 is `eod`.\np:1:1:\na + 1\n^\nThis input ends before line 1, or that line is `eod` itself. At the last line of an input x `iseod next x` is true.\n"
    run.explaining().lucid("p", "a=f").must("", 0, said)


@case
def a_run_of_20_lines_may_have_more(run):
    run.source("n where n = 0 fby n + 1; end")
    said = "A run writes 20 lines where no count is given: with --count N it writes N, 1000000 at most.\n"
    run.explaining().lucid("p").must(lines(*range(20)), 0, said)
    run.explaining().lucid("p", "--count=20").must(lines(*range(20)), 0, "")


LIST = "[% n m %] where m = n * n; n = 0 fby n + 1; end"
SUM = "s where s = x fby s + x; x = 1 fby x + 2; end"
FROZEN = "c asa i eq 2 where k is current n; i = 0 fby i + 1; c = n fby c * 2; end where n = 1 fby n + 1; end"
BLOCK = "f where f = r asa c eq 0 where c = n fby c - 1; r = 1 fby r * c; end; n = 3 fby n + 1; end"

# Sources, what two lines of each are, where something is noted of it, and what that is.
NOTED = [
    (LIST, lines("[% n m %]", "[% n m %]"), 1, "A list between [% and %] has constants: m in it is the word m. Of computed items it is `x :: y :: []`.\n"),
    (
        SUM,
        lines(1, 2),
        9,
        "Behind `fby` stands the value for the next time, made of values of this time. If x of that next time is meant, write `next x` there.\n",
    ),
    (
        BLOCK,
        lines(6, 6),
        15,
        "`asa` gives one value for all times. A block that is to begin anew at each time has `k is current n;`, and then k in place of n.\n",
    ),
    (
        FROZEN,
        lines(4, 4),
        57,
        "Here the name goes on with the time of the block, where k is its value at the time outside: is k meant?\n",
    ),
]


@case
def what_is_mostly_not_meant_is_noted(run):
    for source, output, column, said in NOTED:
        run.source(source)
        shown_there = f"p:1:{column}:\n{source}\n" + " " * (column - 1) + "^\n"
        run.explaining().lucid("p", "--count=2").must(output, 0, shown_there + said)


@case
def what_is_meant_is_not_noted(run):
    run.source("n :: m :: [] where m = n * n; n = 0 fby n + 1; end")
    run.explaining().lucid("p", "--count=2").must(lines("[% 0 0 %]", "[% 1 1 %]"), 0, "")
    run.source(SUM.replace("s + x", "s + next x"))
    run.explaining().lucid("p", "--count=2").must(lines(1, 4), 0, "")
    run.source(BLOCK.replace("c = n", "k is current n; c = k"))
    run.explaining().lucid("p", "--count=2").must(lines(6, 24), 0, "")
    run.source(FROZEN.replace("c = n", "c = k"))
    run.explaining().lucid("p", "--count=2").must(lines(4, 8), 0, "")


@case
def of_a_long_source_nothing_is_noted(run):
    run.source(LIST + " " * (4096 - len(LIST)))
    run.explaining().lucid("p", "--count=1").must(lines("[% n m %]"), 0, f"p:1:1:\n{LIST:160}\n^\n" + NOTED[0][3])
    run.source(LIST + " " * (4097 - len(LIST)))
    run.explaining().lucid("p", "--count=1").must(lines("[% n m %]"), 0, "")


@case
def the_greatest_depth_is_known(run):
    run.source("1 asa false")
    judged = "too deep at time 0\n`--cycles` says: not judged at 2\nHere is a search: it looks at times below the depth limit alone. "
    search = "If its test is never true again, no depth is enough: --count asks for the lines that there are. If it is true later:\n"
    run.explaining().lucid("p", "--depth=1000000").must("", 5, judged + search + "The limit is the greatest --depth already, 1000000.\n")


@case
def a_place_at_the_very_end(run):
    run.source("1 +\n")
    text = "syntax at 4\np:2:1:\n\n^\nHere the source ends.\nWhat may stand here: a name, a number, `(`, `if`.\nAn expression is missing before this.\n"
    run.explaining().lucid("p").must("", 1, text)


@case
def words_that_are_no_text(run):
    ended = run.explaining().lucid(b"\xff").must("", 2)
    check(ended.report.startswith(b"usage: lucid ") and ended.report.count(b"\n") == 1, shown(ended.report))


@case
def a_word_that_is_wrong_is_told(run):
    ended = run.explaining().lucid("--policy", "kept", "p").must("", 2)
    check(b"\nThis word doesn't go with those before it: kept\nWhat an option wants stands behind it" in ended.report, shown(ended.report))


@case
def a_full_disk_is_told_of(run):
    run.source("1")
    if not os.path.exists("/dev/full"):
        raise Skipped("/dev/full")
    with open("/dev/full", "wb") as full:
        ended = run.explaining().lucid("p", stdout=full)
    said = "write fault\nThe standard output can't be written: the disk may be full. Or a program that reads it has ended, as `head` does: that is no mistake.\n"
    check((ended.status, ended.report) == (4, said.encode()), f"{ended.status}, {shown(ended.report)}")


@case
def a_directory_is_no_program(run):
    os.mkdir(run.path("d"))
    run.explaining().lucid("d").must("", 3)


@case
def help_and_version_stand_alone(run):
    explaining = run.explaining()
    ended = explaining.lucid("--help").must(None, 0)
    check(ended.out.startswith(b"lucid_explain runs a pLucid program"), shown(ended.out))
    with open(os.path.join(run.top, "VERSION"), encoding="utf-8") as version:
        explaining.lucid("--version").must(f"lucid_explain {version.read().strip()}\n")
    run.source("1")
    explaining.lucid("p", "--help").must("", 2)


# Programs, certificates, and what is said of the judgment that doesn't follow. The second program has the nodes x, 2, f(2), x, 1, +, fby, y,
# y, *; the third hasn't so many nodes.
JUDGMENTS = [
    (
        "3 + 4",
        "j 0 0 0 0 0 3\nj 1 0 0 0 0 4\nj 2 0 0 0 2 0 1 8\n",
        "judgment 2 does not follow\np:1:3:\n3 + 4\n  ^\nLine 3 of the certificate has this judgment, of node 2, which stands here: +.\n",
    ),
    (
        "x where\n  x = f(2) fby x + 1;\n  f(y) = y * y; end",
        "c 0 0 0\nj 9 1 0 0 0 5\n",
        "judgment 0 does not follow\np:3:12:\n  f(y) = y * y; end\n           ^\nLine 2 of the certificate has this judgment, of node 9, which stands here: *.\n",
    ),
    ("3 + 4", "j 7 0 0 0 0 3\n", "judgment 0 does not follow\n"),
]

OTHERWISE = (
    "The judgment of this number, from 0, isn't what its node gives from the judgments that it uses, or it is the last one and not that of the "
    "program itself. The certificate is false, or it is one of another program or of other inputs.\n"
)


@case
def judgments_are_told_by_their_pieces(run):
    for source, certificate, report in JUDGMENTS:
        run.source(source)
        run.write("c", certificate)
        run.explaining().lucid("--check", "c", "p").must("", 1, report + OTHERWISE)
