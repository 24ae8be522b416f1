"""Little stack, little memory, deep and large programs: a status that the pages name, and whole lines before it."""
import time

from harness import Failed, case, check, lines, long_case, shown

UP = "x where x = 0 fby x + 1; end"
FIBONACCI = "f where f = 0 fby g; g = 1 fby f + g; end"
DEPTH = 400


def nested(inner, before, after, depth=DEPTH):
    """`inner` at the given depth, each level being written as `before`, the level below it, `after`."""
    return before * (depth - 1) + inner + after * (depth - 1)


def deep_forms():
    """For each form a program of depth 400: the form inside itself, at its left, its right and its middle."""
    for word in ("not", "-", "abs", "first", "next", "initial", "succ", "iseod", "iserror", "isint", "islist", "isnull", "isatom"):
        yield word, nested("n" if word in ("-", "abs") else "true", word + " ", "")
    for word in ("hd", "tl", "length", "mkword", "mkstring", "isword", "isstring", "istruth"):
        yield word, nested("n", word + " ", "")
    two = "+ - * div mod ** < <= > >= eq ne cmp :: <> ^ and or fby sby whenever wvr asa upon attime atspace"
    for word in two.split():
        yield f"{word} at its left", nested("n", "(", f") {word} n")
        yield f"{word} at its right", nested("n", f"n {word} (", ")")
    for before, after in (("if ", " then n else n fi"), ("if true then ", " else n fi"), ("if false then n else ", " fi")):
        yield f"if{before[2:]}", nested("n", before, after)
    yield "substr", nested("`word'", "substr(", ", 0, 1)")
    yield "nth", nested("n", "nth([% 1 %], ", ")")
    yield "call", f"{nested('n', 'g(', ')', DEPTH - 1)} where g(x) = x; end"
    yield "block", nested("n", "(", " where end)")
    yield "plain name", nested("n", "(x where x = ", "; end)")
    yield "function", nested("n", "(f(n) where f(x) = ", "; end)", DEPTH - 1)
    yield "current name", nested("n", "(x where x is current ", "; end)")
    yield "parentheses", "(" * 100_000 + "n" + ")" * 100_000


def same_with_little_stack(run, name, source, kib):
    """Each task over a deep program does with a little stack what it does with the usual one."""
    run.source(source)
    for words in (["--count=2", "--depth=1000"], ["--print"], ["--flat"], ["--cycles"]):
        usual = run.lucid("p", *words, given="1\n2\n")
        small = run.lucid("p", *words, given="1\n2\n", limits=f"ulimit -s {kib}")
        same = (usual.status, usual.out, usual.report) == (small.status, small.out, small.report)
        check(same and small.status >= 0, f"{name} {words}: {small.status} {shown(small.report)}, not {usual.status} {shown(usual.report)}")
        is_right = usual.status == 0 or words == ["--cycles"] and usual.report.startswith(b"not judged at ")
        check(is_right, f"{name} {words}: {usual.status}, {shown(usual.report)}")


@long_case
def all_forms_at_the_greatest_depth_with_a_stack_of_256_kib(run):
    run.needs_a_plain_command()
    for name, source in deep_forms():
        same_with_little_stack(run, name, source, 256)


@case
def one_level_more_is_too_nested(run):
    for word in ("not ", "- ", "hd "):
        run.source(word * 399 + "true")
        check(run.lucid("p", "--print").status == 0, f"{word} 400 deep")
        run.source(word * 400 + "true")
        run.lucid("p", "--print").must("", 1, f"too nested at {400 * len(word)}\n")


@case
def usual_programs_with_a_stack_of_256_kib(run):
    run.needs_a_plain_command()
    run.source("x attime 500000 where x = 0 fby x + 1; end")
    run.lucid("p", "--count=1", "--depth=1000000", limits="ulimit -s 256").must(lines(500000))
    run.source("f(n) where f(x) = if x eq 0 then 0 else 1 + f(x - 1) fi; n = 20000 * (0 fby n + 1); end")
    run.source("f(20000) where f(x) = if x eq 0 then 0 else 1 + f(x - 1) fi; end")
    run.lucid("p", "--count=1", limits="ulimit -s 256").must(lines(20000))
    run.lucid("--make=10000", "--count=2", limits="ulimit -s 256").must(lines(1, 2), report="lines 2 held 10002 lost 0 cleared 0\n")
    run.source(FIBONACCI)
    for words in (["--policy=last"], ["--policy=age"], ["--policy=keep"]):
        ended = run.lucid("p", "--count=90", *words, limits="ulimit -s 256")
        check(ended.status == 0 and ended.out.endswith(b"\n1779979416004714189\n"), f"{words}: {shown(ended.out[-40:])}")
    run.write("list", "[% " * 64 + "1" + " %]" * 64)
    run.source("a")
    run.lucid("p", "a=list", limits="ulimit -s 256").must(lines("[% " * 64 + "1" + " %]" * 64))


# Programs that want much memory: source, words, input.
HUNGRY = [
    ("counting", UP, ["--count=3000"], ""),
    ("two names", FIBONACCI, ["--count=180"], ""),
    ("a deep demand", "x attime 30000 where x = 0 fby x + 1; end", ["--count=1"], ""),
    ("a list", "x where x = [] fby i :: x; i = 0 fby i + 1; end", ["--count=700"], ""),
    ("a list from its end", "x where x = [] fby x <> (i :: []); i = 0 fby i + 1; end", ["--count=700"], ""),
    ("a string", "x where x = `a' fby x ^ `b'; end", ["--count=2000"], ""),
    ("calls", "f(n) where f(x) = if x eq 0 then 0 else 1 + f(x - 1) fi; n = 0 fby n + 1; end", ["--count=150"], ""),
    ("nested time", "m where m is current n; n = 0 fby n + 1; end where n = 0 fby n + 1; end", ["--count=2000"], ""),
    ("a search", "n whenever n mod 3 eq 0 where n = 0 fby n + 1; end", ["--count=1000"], ""),
    ("long lines", "length a", ["--count=20"], "`" + "a" * 60_000 + "'\n" + "[% 1" + " 2" * 60_000 + " %]\n" * 5),
    ("space", "p atspace 20 where p = (1 sby 0) fby (1 sby p + succ p); end", ["--count=60"], ""),
    ("printing", "not " * 390 + "true", ["--print"], ""),
    ("cycles", FIBONACCI, ["--cycles"], ""),
]


def least_address_space(run):
    """The least address space in KiB, by steps of 256, in which the system starts the command and it writes a constant."""
    run.needs_a_plain_command()
    run.source("1", "one")
    for kib in range(1024, 65_536, 256):
        if run.lucid("one", "--count=1", limits=f"ulimit -v {kib}").status == 0:
            return kib
    raise Failed("in 64 MiB of address space it doesn't start")


def is_whole_prefix(part, whole):
    return whole.startswith(part) and (not part or part.endswith(b"\n"))


def in_little_memory(run, least, name, source, words, given):
    """Runs a program in more and more memory, from the least on; returns how many runs were refused memory."""
    run.source(source)
    usual = run.lucid("p", *words, given=given)
    refused = 0
    for more in (0, 128, 256, 512, 1024, 2048, 4096):
        small = run.lucid("p", *words, given=given, limits=f"ulimit -v {least + more}")
        where = f"{name} with {least + more} KiB: {small.status}, {shown(small.report)}, {shown(small.out[-60:])}"
        check(small.status in (usual.status, 7), where)
        check(small.status != 7 or small.report == b"no memory\n", where)
        check(is_whole_prefix(small.out, usual.out), where)
        check(small.status != usual.status or small.out == usual.out, where)
        refused += small.status == 7
    return refused


@long_case
def want_of_memory_is_explained(run):
    explaining = run.explaining()
    least = least_address_space(explaining)
    source, words, given = next(it[1:] for it in HUNGRY if it[0] == "a deep demand")
    run.source(source)
    ended = [explaining.lucid("p", *words, given=given, limits=f"ulimit -v {least + more}") for more in (0, 128, 256, 512, 1024, 2048, 4096)]
    reports = {it.report for it in ended if it.status == 7}
    said = b"no memory\nThere is not memory enough. A smaller --depth needs less, and so does --policy last with a small --room.\n"
    check(reports == {said}, shown(reports))


@long_case
def little_memory_gives_whole_lines_and_a_status(run):
    least = least_address_space(run)
    refused = sum(in_little_memory(run, least, *it) for it in HUNGRY)
    check(refused >= 5, f"only {refused} runs were refused memory, so the limits are too wide")


@long_case
def a_deep_tree_in_little_memory(run):
    in_little_memory(run, least_address_space(run), "a table", "not " * 390 + "true", ["--flat"], "")


@case
def below_what_is_needed_to_start_it_never_crashes(run):
    least = least_address_space(run)
    run.source(UP)
    for kib in range(max(1024, least - 2048), least + 256, 64):
        ended = run.lucid("p", "--count=3", limits=f"ulimit -v {kib}")
        # 127 and 126 are the loader's, before the command begins
        where = f"with {kib} KiB: {ended.status}, {shown(ended.report)}"
        check(ended.status in (0, 7, 126, 127), where)
        check(is_whole_prefix(ended.out, lines(0, 1, 2).encode()), where)


@long_case
def a_million_lines_in_little_memory_by_the_last_values(run):
    run.needs_a_plain_command()
    run.source(UP)
    begun = time.monotonic()
    text = 'ulimit -v 20000; "$LUCID" --policy=last --count=1000000 p | tail -n 1'
    run.shell(text).must(lines(999_999))
    check(time.monotonic() - begun < 30, f"it took {time.monotonic() - begun:.0f} seconds")


@long_case
def want_of_memory_slows_a_run_and_spoils_no_line(run):
    run.needs_a_plain_command()
    run.source(UP)
    ended = run.shell('ulimit -v 50000; timeout 10 "$LUCID" --count=1000000 p')
    got = ended.out.splitlines(keepends=True)
    check(len(got) > 100_000, f"only {len(got)} lines came before the memory was used up and in ten seconds")
    check(got == [b"%d\n" % k for k in range(len(got))], shown(ended.out[-60:]))


@long_case
def a_run_past_a_clearing(run):
    # each line enters a context of its own and 100,000 inside it, so that more than 1,000,000 are known after ten
    inner = "m attime 100000 where a is current n; m = a fby (y where x is current m; y = x + 1; end); end"
    run.source(f"{inner} where n = 0 fby n + 1; end")
    ended = run.lucid("p", "--count=12", "--depth=1000000", "--stats")
    check(ended.status == 0 and ended.out.decode() == lines(*range(100_000, 100_012)), shown(ended.out))
    check(ended.report.startswith(b"lines 12 held ") and ended.report.endswith(b" lost 0 cleared 1\n"), shown(ended.report))


@case
def a_list_and_a_string_that_are_built_at_their_ends(run):
    run.source("x where x = [] fby x <> (n :: []); n = 0 fby n + 1; end")
    last = run.lucid("p", "--count=1000").out.splitlines()[-1]
    check(last == b"[% " + b" ".join(b"%d" % k for k in range(999)) + b" %]", shown(last[-60:]))
    run.source("length (x attime 3000) where x = `a' fby x ^ `b'; end")
    run.lucid("p", "--count=1").must(lines(3001))
    run.source("nth(a, 9999)")
    run.lucid("p", "--count=1", given="[% " + " ".join(str(k * k) for k in range(10_000)) + " %]\n").must(lines(9999 * 9999))


@case
def a_node_that_several_rows_of_a_table_name(run):
    rows = "".join(f"node 0 apply add {k} {k} 0\n" for k in range(15))
    run.write("table", f"lucid flat 1\nconst 1\nnode 0 const 0\n{rows}root 15\n")
    run.lucid("--from-flat", "--count=1", "table").must(lines(2**15))


@long_case
def a_room_of_what_is_in_use(run):
    run.source(FIBONACCI)
    ended = run.lucid("p", "--policy=last", "--room=4", "--count=180", "--stats")
    check(ended.status == 0 and ended.report.startswith(b"lines 180 "), f"{ended.status}, {shown(ended.report)}")


@case
def calls_without_end(run):
    # At each of the 100,000 calls x waits behind the next one. Were what it needs of all calls round it asked for meanwhile, no memory would be enough.
    run.source("f(1) where f(x) = x * f(x - 1); end")
    run.needs_a_plain_command()
    run.lucid("p", "--count=1", limits="ulimit -v 400000").must("", 5, "too deep at time 0\n")


@case
def a_search_over_more_lines_than_the_depth(run):
    run.source("n asa n eq 120000 where n = 0 fby n + 1; end")
    run.lucid("p", "--count=1").must("", 5, "too deep at time 0\n")
    run.lucid("p", "--count=1", "--depth=200000").must(lines(120000))


@long_case
def a_million_lines_and_a_million_references(run):
    run.source("x attime 999998 where x = 0 fby x + 1; end")
    run.lucid("p", "--count=1", "--depth=1000000").must(lines(999998))
    run.source(UP)
    run.shell('"$LUCID" --count=1000000 p | tail -n 1').must(lines(999_999))


@case
def the_largest_source(run):
    names = 30_000
    text = "v0 where " + "".join(f"v{k} = {k};\n" for k in range(names)) + "end\n"
    run.source(text + " " * (1_048_576 - len(text)))
    run.lucid("p", "--count=2").must(lines(0, 0))
