"""Files and words: names, permissions, line ends, large inputs, and each exit status."""
import os

from harness import NOBODY, Failed, Skipped, case, check, lines, long_case, shown

UP = "x where x = 0 fby x + 1; end"
SUM = "s where s = a fby s + next a; end"


@case
def a_directory_as_a_file(run):
    run.source("a")
    os.mkdir(run.path("folder"))
    run.lucid("folder").must("", 3, "read fault\n")
    run.lucid("p", "a=folder").must("", 3, "read fault\n")
    run.lucid(".").must("", 3, "read fault\n")


@case
def a_file_without_permission(run):
    run.source("a")
    run.write("f", "1\n")
    os.chmod(run.room, 0o755)
    how = {"user": NOBODY, "group": NOBODY, "extra_groups": []} if os.geteuid() == 0 else {}
    try:
        run.lucid("p", "a=f", **how).must(lines(1))
        os.chmod(run.path("f"), 0)
        run.lucid("p", "a=f", **how).must("", 3, "read fault\n")
        os.chmod(run.path("p"), 0)
        run.lucid("p", "a=f", **how).must("", 3, "read fault\n")
    except PermissionError as trouble:
        raise Skipped("leave to run as another user") from trouble


@case
def names_with_blanks_and_marks(run):
    folder = "a folder; with 'marks' \"and\" $blanks\nand a line end"
    os.mkdir(run.path(folder))
    run.write(f"{folder}/the program", SUM)
    run.write(f"{folder}/the = input", "3\n4\n")
    run.lucid(f"{folder}/the program", f"a={folder}/the = input").must(lines(3, 7))


@case
def names_that_are_not_ascii(run):
    run.write("prógràm-程序", SUM)
    run.write("éntrée", "3\n4\n")
    run.lucid("prógràm-程序", "a=éntrée").must(lines(3, 7))


@case
def names_that_begin_with_a_mark(run):
    for name in ("--count", "-p", "--", "-", "--flat"):
        run.write(name, UP)
    run.lucid("--count=2", "--", "--count").must(lines(0, 1))
    run.lucid("--count=2", "--", "-p").must(lines(0, 1))
    run.lucid("--count=2", "--", "--").must(lines(0, 1))
    run.lucid("--count=2", "--", "--flat").must(lines(0, 1))
    run.lucid("--count=2", "./-").must(lines(0, 1))
    run.lucid("--count=2", "--", "-").must("", 2)
    run.lucid("-p").must("", 2)


@case
def options_stand_anywhere(run):
    run.source("a")
    run.write("f", "1\n2\n3\n")
    for words in (
        ["--count", "2", "p", "a=f"],
        ["p", "--count", "2", "a=f"],
        ["p", "a=f", "--count=2"],
        ["--count=+2", "--", "p", "a=f"],
        ["--count=002", "p", "--", "a=f"],
    ):
        run.lucid(*words).must(lines(1, 2))
    ended = run.lucid("p", "a=f", "--", "--count=2")
    check(ended.status == 2, f"behind `--` there are files alone: status {ended.status}")


@case
def words_that_are_not_utf_8(run):
    run.source(UP)
    for words in ([b"\xff"], [b"p", b"a=\xff\xfe"], [b"--count=\xff", b"p"], [b"p", b"--\xc3\x28"]):
        ended = run.lucid(*words)
        check(ended.status == 2 and ended.report.startswith(b"usage:"), f"{words}: {ended.status}, {shown(ended.report)}")
        check(not ended.out and ended.report.count(b"\n") == 1, f"{words}: {shown(ended.out)}, {shown(ended.report)}")


@case
def words_that_are_usage(run):
    run.source(UP)
    for words in (
        [],
        [""],
        ["-"],
        ["p", "q"],
        ["p", "=f"],
        ["p", "a="],
        ["p", "a=-"],
        ["p", "1a=f"],
        ["--count=0", "p"],
        ["--count=1000001", "p"],
        ["--count", "p"],
        ["--count=", "p"],
        ["--count=1", "--count=1", "p"],
        ["--cou=1", "p"],
        ["-c", "p"],
        ["--help"],
        ["--version"],
        ["--policy=all", "p"],
        ["--print", "--flat", "p"],
        ["--make=0"],
        ["--make=10001"],
        ["--make=2", "p"],
        ["--depth=1e3", "p"],
    ):
        ended = run.lucid(*words)
        check(ended.status == 2 and ended.report.startswith(b"usage:"), f"{words}: {ended.status}, {shown(ended.report)}")
        check(not ended.out and ended.report.count(b"\n") == 1, f"{words}: {shown(ended.out)}, {shown(ended.report)}")


@case
def very_many_and_very_long_words(run):
    run.source(UP)
    ended = run.lucid("p", *[f"a{k}=f" for k in range(5000)])
    check((ended.status, ended.report) == (2, b"no input is named a0\n"), f"{ended.status}, {shown(ended.report)}")
    ended = run.lucid("p" * 100_000)
    check((ended.status, ended.report) == (3, b"read fault\n"), f"{ended.status}, {shown(ended.report)}")


@case
def a_missing_file(run):
    run.lucid("nothing").must("", 3, "read fault\n")


@case
def a_missing_file_among_several(run):
    run.source("a + b + c")
    for name in "abc":
        run.write(name, "1\n2\n")
    run.lucid("p", "a=a", "b=b", "c=c").must(lines(3, 6))
    for lost in "abc":
        files = [f"{it}={'nothing' if it == lost else it}" for it in "abc"]
        run.lucid("p", *files).must("", 3, "read fault\n")


@case
def more_inputs_than_the_system_lets_be_open(run):
    names = [f"a{k}" for k in range(1100)]
    run.source(" + ".join(names[:350]) + "".join(f" + ({' + '.join(names[at : at + 350])})" for at in range(350, 1100, 350)))
    run.write("f", "1\n2\n")
    words = ["p", *(f"{it}=f" for it in names)]
    run.lucid(*words, limits="ulimit -n 1024").must("", 3, "read fault\n")
    if run.shell("ulimit -n 1200").status == 0:
        run.lucid(*words, limits="ulimit -n 1200").must(lines(1100, 2200))


@case
def the_same_file_twice(run):
    run.source("a + b")
    run.write("f", "1\n2\n")
    run.lucid("p", "a=f", "b=f").must(lines(2, 4))
    run.lucid("p", "a=f", "b=f", "a=f").must("", 2, "a is given twice\n")


@case
def the_program_as_its_own_input(run):
    run.write("p", "a\n")
    run.lucid("p", "a=p").must(lines("a"))


@case
def a_named_pipe_as_a_file(run):
    run.source(SUM)
    os.mkfifo(run.path("pipe"))
    run.shell('(printf "3\\n4\\n" > pipe &) ; "$LUCID" p a=pipe').must(lines(3, 7))


@case
def devices_as_files(run):
    run.source(SUM)
    run.lucid("p", "a=/dev/null").must("")
    run.lucid("p", "a=/dev/stdin", given="3\n4\n").must(lines(3, 7))
    run.lucid("/dev/null").must("", 1, "syntax at 0\n")
    ended = run.lucid("/dev/zero")
    check((ended.status, ended.report) == (1, b"source too long\n"), f"{ended.status}, {shown(ended.report)}")


@case
def line_ends_of_two_bytes(run):
    run.write("p", "s where // running\r\n  s = a fby\r\n s + next a;\r\nend\r\n")
    run.write("f", "3\r\n4\r\n5\r\n")
    run.lucid("p", "a=f").must(lines(3, 7, 12))


@case
def a_file_without_a_last_line_end(run):
    run.source("a")
    for text, wanted in (("3\n4", [3, 4]), ("3\n4\n", [3, 4]), ("3\n\n", [3, "error"]), ("", []), ("\n", ["error"]), (" ", ["error"])):
        run.write("f", text)
        run.lucid("p", "a=f").must(lines(*wanted))
        run.lucid("p", given=text).must(lines(*wanted))


@case
def bytes_that_are_no_values(run):
    run.source("a")
    run.write("f", b"\x00\n\xff\xfe\n1\x002\n" + bytes(range(128, 256)) + b"\n7\n")
    run.lucid("p", "a=f").must(lines("error", "error", "error", "error", 7))


@case
def a_byte_order_mark_is_a_bad_byte(run):
    run.source("\ufeff" + UP)
    run.lucid("p").must("", 1, "bad byte at 0\n")


@case
def a_long_line_and_one_that_is_too_long(run):
    run.source("a")
    most = 4_194_304
    run.write("f", b" " * (most - 1) + b"7\n" + b" " * most + b"8\n" + b"9\n")
    run.lucid("p", "a=f").must(lines(7, "error", 9))


def empty_bytes(run, name, size):
    """A file of that many zero bytes, which takes no room on a disk."""
    with open(run.path(name), "wb") as it:
        it.truncate(size)
    return name


@long_case
def an_input_of_256_mib_less_a_byte_is_read_to_its_end(run):
    run.source("a")
    empty_bytes(run, "f", 268_435_455)
    run.lucid("p", "a=f").must(lines("error"))


@long_case
def an_input_of_256_mib_is_too_large(run):
    run.source("a")
    empty_bytes(run, "f", 268_435_456)
    run.lucid("p", "a=f").must("", 6, "input a too large\n")


@long_case
def what_stands_before_a_large_end_is_written(run):
    run.source("a")
    with open(run.path("f"), "wb") as it:
        it.write(b"1\n2\n3\n")
        it.truncate(300_000_000)
    run.lucid("--count=3", "p", "a=f").must(lines(1, 2, 3))
    run.lucid("--count=4", "p", "a=f").must(lines(1, 2, 3), 6, "input a too large\n")


@long_case
def an_endless_input(run):
    run.source("a")
    run.shell('yes 5 | "$LUCID" --count=200000 p | sort -u').must(lines(5))


@case
def each_exit_status(run):
    run.source(UP)
    run.lucid("p").must(lines(*range(20)))
    run.source("x where x = ; end", "bad")
    run.lucid("bad").must("", 1, "syntax at 12\n")
    run.lucid("p", "y=f").must("", 2, "no input is named y\n")
    run.lucid("nothing").must("", 3, "read fault\n")
    with open("/dev/full", "wb") as full:
        run.lucid("p", stdout=full).must(None, 4, "write fault\n")
    run.source("x where x = x; end", "deep")
    run.lucid("deep").must("", 5, "too deep at time 0\n")
    run.lucid("deep", "--stats").must("", 5, "too deep at time 0 lost 0 cleared 0\n")


@case
def each_refusal_of_a_source(run):
    for source, report in (
        ("1 + #", "bad byte at 4"),
        ("`open", "open text at 0"),
        ("[% 1", "open text at 0"),
        ("170141183460469231731687303715884105728", "number too big at 0"),
        ("1 +", "syntax at 3"),
        ("not " * 400 + "true", "too nested at 1600"),
        ("x where x = 1; x = 2; end", "defined twice at 15"),
        ("f(1)", "no such function at 0"),
        ("x(1) where x = 1; end", "not a function at 0"),
        ("f where f(x) = x; end", "function without arguments at 0"),
        ("f(1, 2) where f(x) = x; end", "wrong number of arguments at 0: 1 wanted, 2 given"),
        ("a + b", "no input for two names"),
    ):
        run.source(source)
        run.lucid("p").must("", 1, report + "\n")
    run.source(b" " * 1_048_576 + b"1")
    run.lucid("p").must("", 1, "source too long\n")


@case
def what_is_not_in_the_language_is_refused_where_it_stands(run):
    for source, report in (
        ("2.5", "bad byte at 1"),
        ("a / 2", "bad byte at 2"),
        ("a % 2", "bad byte at 2"),
        ("a && b", "bad byte at 2"),
        ("!a", "bad byte at 0"),
        ("[1, 2]", "bad byte at 0"),
        ("'a'", "bad byte at 0"),
        ('"two words"', "bad byte at 0"),
        ("a == 1", "syntax at 2"),
        ("if a = 1 then 2 else 3 fi", "syntax at 5"),
        ("1 < a < 5", "syntax at 6"),
        ("a eq not b", "syntax at 5"),
        ("if a then 1 fi", "syntax at 12"),
    ):
        run.source(source)
        run.lucid("p").must("", 1, report + "\n")


@case
def the_flat_form_lists_the_inputs(run):
    run.source("total + b where totl = 0 fby total + 1; end")
    run.shell('"$LUCID" --flat p | grep ^input').must(lines("input total", "input b"))


@case
def a_table_has_rows_for_what_nothing_reaches(run):
    run.source("x where x = 0 fby x + 1; y = z * 7; z = 5; end")
    table = run.lucid("--flat", "p")
    kept = [it for it in table.out.decode().splitlines() if it.startswith(("plain ", "const "))]
    check(sorted(it.split()[0] for it in kept) == ["const"] * 4 + ["plain"] * 3, shown(kept))
    run.write("table", table.out)
    run.lucid("--from-flat", "--count=2", "table").must(lines(0, 1))


@case
def a_table_goes_round(run):
    source = "c where c = n where e is current a; n = (if a eq e then 1 else 0 fi) fby n + (if next a eq e then 1 else 0 fi); end; end"
    run.source(source)
    table = run.lucid("--flat", "p")
    check(table.status == 0 and table.out.startswith(b"lucid flat 1\n"), shown(table.out))
    run.write("table", table.out)
    run.lucid("--from-flat", "table", given="5\n5\n7\n5\n").must(lines(1, 2, 1, 3))
    printed = run.lucid("--print", "p")
    run.write("again", printed.out)
    run.lucid("again", given="5\n5\n7\n5\n").must(lines(1, 2, 1, 3))


@case
def a_certificate_is_made_and_checked(run):
    run.source("s asa n >= first b where s = 0 fby s + next a; n = 0 fby n + 1; end")
    run.write("f", lines(4, 5, 6, 7, 8))
    made = run.lucid("--why", "2", "p", "a=f", given="3\n")
    check(made.status == 0 and made.out.startswith(b"j ") and made.out.endswith(b" 18\n"), shown(made.out))
    run.write("why", made.out)
    run.lucid("--check", "why", "p", "a=f", given="3\n").must("18 at 2\n")
    run.write("why", made.out.replace(b" 18\n", b" 19\n"))
    ended = run.lucid("--check", "why", "p", "a=f", given="3\n")
    check(ended.status == 1 and ended.report.endswith(b" does not follow\n"), shown(ended.report))
    run.lucid("--why", "2", "--depth=2", "--stats", "p", "a=f", given="3\n").must("", 5, "too deep at time 2\n")


@case
def a_certificate_is_deep(run):
    run.source("x where x = 0 fby x + 1; end")
    made = run.lucid("--why", "20000", "p")
    check(made.status == 0 and made.out.count(b"\n") > 20000, made.words)
    run.write("why", made.out)
    run.lucid("--check", "why", "p").must("20000 at 20000\n")


@case
def a_table_from_anybody(run):
    good = run.source("f(n) where f(x) = x + 1; n = 0 fby n + 1; end")
    table = run.lucid("--flat", good).out
    for at in range(0, len(table), 3):
        for bad in (table[:at], table[:at] + b"9" + table[at + 1 :]):
            run.write("table", bad)
            ended = run.lucid("--from-flat", "--count=3", "--depth=100", "table", given="1\n2\n3\n")
            if ended.status not in (0, 1, 5):
                raise Failed(f"{shown(bad)}: status {ended.status}, {shown(ended.report)}")
