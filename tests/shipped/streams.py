"""Standard input and output: pipes, files, closed ones, readers that go away, signals."""
import os
import select
import signal
import subprocess
import time

from harness import Failed, case, check, lines, long_case, shown

UP = "x where x = 0 fby x + 1; end"
SUM = "s where s = a fby s + next a; end"


def line_from(pipe, seconds=60):
    """The next line of a pipe, or a failure where none comes."""
    got, waiting = b"", select.poll()
    waiting.register(pipe, select.POLLIN)
    while not got.endswith(b"\n"):
        check(waiting.poll(seconds * 1000), f"no line came in {seconds} seconds, only {shown(got)}")
        byte = os.read(pipe.fileno(), 1)
        check(byte, f"the output ended at {shown(got)}")
        got += byte
    return got


@case
def standard_input_is_a_pipe(run):
    run.source(SUM)
    run.lucid("p", given="3\n4\n5\n").must(lines(3, 7, 12))


@case
def standard_input_is_a_pipe_that_comes_by_single_bytes(run):
    run.source(SUM)
    child = run.start(["p"], stdin=subprocess.PIPE)
    for byte in b"10\n20\n30\n":
        child.stdin.write(bytes([byte]))
        child.stdin.flush()
        time.sleep(0.005)
    run.ended(child, ["p"]).must(lines(10, 30, 60))


@case
def a_line_is_out_before_the_next_is_computed(run):
    run.source("x where x = 1 fby f(60); f(n) = if n < 2 then n else f(n - 1) + f(n - 2) fi; end")
    child = run.start(["p"])
    check(line_from(child.stdout) == b"1\n", "the first line")
    check(child.poll() is None, "the second value came at once")
    os.killpg(child.pid, signal.SIGKILL)
    child.communicate()


@case
def standard_input_is_a_file(run):
    run.source(SUM)
    with open(run.path(run.write("f", "3\n4\n5")), "rb") as given:
        run.lucid("p", stdin=given).must(lines(3, 7, 12))


@case
def standard_input_is_a_file_that_was_read_in_part(run):
    run.source(SUM)
    run.write("f", "100\n3\n4\n")
    run.shell('(read line; "$LUCID" p) < f').must(lines(3, 7))


@case
def standard_input_is_the_null_device(run):
    run.source(SUM)
    run.lucid("p", stdin=subprocess.DEVNULL).must("")


@case
def standard_input_that_is_not_asked_for_is_left(run):
    run.source(UP)
    run.write("f", "3\n4\n")
    run.shell('("$LUCID" --count=2 p; cat) < f').must(lines(0, 1, 3, 4))


@case
def standard_input_that_cannot_be_read(run):
    run.source(SUM)
    with open(run.path("f"), "wb") as given:
        run.lucid("p", stdin=given).must("", 3, "read fault\n")


@case
def standard_input_that_is_a_directory(run):
    run.source(SUM)
    run.shell('"$LUCID" p < .').must("", 3, "read fault\n")


@case
def standard_input_closed_is_the_end_or_a_read_fault(run):
    run.source("a")
    ended = run.lucid("p", limits="exec <&-")
    check((ended.status, ended.out) in ((0, b""), (3, b"")), f"status {ended.status}, {shown(ended.out)}: it read the source's file")


@case
def standard_input_closed_hurts_no_program_without_it(run):
    run.source("b")
    run.write("f", "5\n6\n")
    run.lucid("p", "b=f", limits="exec <&-").must(lines(5, 6))


@case
def standard_output_closed_is_a_write_fault(run):
    source = "a\n"
    run.source(source)
    run.write("f", "5\n6\n")
    run.lucid("p", "a=f", limits="exec >&-").must("", 4, "write fault\n")
    with open(run.path("p"), "rb") as p, open(run.path("f"), "rb") as f:
        check((p.read(), f.read()) == (source.encode(), b"5\n6\n"), "a file was written into")


@case
def standard_error_closed_loses_the_report_alone(run):
    run.source("x where x = 1; x = 2; end")
    run.lucid("p", limits="exec 2>&-").must("", 1, "")
    run.source("a")
    run.write("f", "5\n6\n")
    run.lucid("p", "a=f", "--stats", limits="exec 2>&-").must(lines(5, 6), report="")
    with open(run.path("f"), "rb") as f:
        check(f.read() == b"5\n6\n", "a file was written into")


@case
def all_three_closed(run):
    run.source("a")
    run.write("f", "5\n6\n")
    ended = run.lucid("p", "a=f", limits="exec <&- >&- 2>&-")
    check(ended.status == 4, f"status {ended.status}")
    with open(run.path("p"), "rb") as p, open(run.path("f"), "rb") as f:
        check((p.read(), f.read()) == (b"a", b"5\n6\n"), "a file was written into")


@case
def all_three_closed_and_the_files_may_be_written(run):
    # the numbers 0, 1 and 2 go to the files that are opened first; they are opened for reading alone
    run.source("a + b + c")
    for name in "abc":
        run.write(name, "5\n6\n")
    for closed in ("<&- >&-", ">&- 2>&-", "<&- 2>&-", "<&- >&- 2>&-"):
        run.lucid("p", "a=a", "b=b", "c=c", "--stats", limits=f"exec {closed}")
        for name, wanted in (("p", b"a + b + c"), ("a", b"5\n6\n"), ("b", b"5\n6\n"), ("c", b"5\n6\n")):
            with open(run.path(name), "rb") as it:
                check(it.read() == wanted, f"with exec {closed} the file {name} was written into")


@case
def a_line_is_out_before_the_next_is_wanted(run):
    run.source(SUM)
    child = run.start(["p"], stdin=subprocess.PIPE)
    total = 0
    for value in (3, 4, 5, 600, -12):
        child.stdin.write(f"{value}\n".encode())
        child.stdin.flush()
        total += value
        got = line_from(child.stdout)
        check(got == f"{total}\n".encode(), f"{shown(got)} came for {total}")
    run.ended(child, ["p"]).must("")


@case
def a_line_that_needs_no_input_is_out_before_any(run):
    run.source("7 fby 8 fby a")
    child = run.start(["p"], stdin=subprocess.PIPE)
    got = line_from(child.stdout) + line_from(child.stdout)
    check(got == b"7\n8\n", shown(got))
    child.stdin.write(b"9")
    run.ended(child, ["p"]).must(lines(9))


@case
def a_run_that_has_its_lines_ends_beside_an_open_input(run):
    run.source("a")
    child = run.start(["--count=2", "p"], stdin=subprocess.PIPE)
    child.stdin.write(b"5\n6\n")
    child.stdin.flush()
    out, report = line_from(child.stdout) + line_from(child.stdout), child.stderr
    check(out == b"5\n6\n", shown(out))
    check(child.wait(60) == 0, f"status {child.returncode}")
    for it in (child.stdin, child.stdout, report):
        it.close()


def left_of(run, source, words, given, by_pipe):
    """How many bytes of the standard input a run leaves to a next program on it."""
    run.source(source)
    run.write("given", given)
    text = f'("$LUCID" {words} p > out; wc -c)'
    ended = run.shell(f"cat given | {text}" if by_pipe else f"{text} < given")
    check(ended.status == 0 and not ended.report, f"status {ended.status}, {shown(ended.report)}")
    with open(run.path("out"), "rb") as out:
        return out.read(), int(ended.out)


@case
def of_a_pipe_at_most_65536_bytes_are_taken_past_the_line(run):
    given = lines(*range(100_000, 140_000))
    out, left = left_of(run, "a", "--count=3", given, True)
    check(out == given[:21].encode(), shown(out))
    taken = len(given) - left
    check(21 <= taken <= 21 + 65_536, f"{taken} bytes are gone")


@case
def of_a_file_what_was_not_needed_is_given_back(run):
    given = lines(*range(100_000, 140_000))
    _, left = left_of(run, "a", "--count=3", given, False)
    check(len(given) - left == 21, f"{len(given) - left} bytes are gone, and three lines have 21")


@case
def runs_that_share_a_file_each_go_on_where_the_one_before_ended(run):
    run.source("a")
    run.source(SUM, "sum")
    run.write("f", "".join(f"{k}\n" for k in range(10_000)))
    ended = run.shell('("$LUCID" --count=3 p; "$LUCID" --count=2 sum; "$LUCID" --count=3000 p | tail -n 1; head -n 1) < f')
    ended.must(lines(0, 1, 2, 3, 7, 3004, 3005))
    for text, rest in (("7", ""), ("\n", ""), ("7\n8", "8"), ("7\n\n", "\n")):
        run.write("f", text)
        run.shell('("$LUCID" --count=1 p; cat) < f').must(lines("error" if text == "\n" else 7) + rest)


@case
def two_programs_joined_by_a_pipe(run):
    run.source(UP, "first")
    run.source("b whenever b mod 1000 eq 0", "second")
    ended = run.shell('"$LUCID" --count=20000 first | "$LUCID" --count=100000 --depth=100000 second')
    ended.must(lines(*range(0, 20_000, 1000)))


@case
def a_reader_that_goes_away(run):
    run.source(UP)
    ended = run.shell('"$LUCID" --count=1000000 p | head -n 3')
    check((ended.status, ended.out) == (0, lines(0, 1, 2).encode()), f"{ended.status}, {shown(ended.out)}")
    check(ended.report in (b"", b"write fault\n"), shown(ended.report))


def read_and_close(run, **how):
    run.source(UP)
    child = run.start(["--count=1000000", "p"], **how)
    for number in range(3):
        got = line_from(child.stdout)
        check(got == f"{number}\n".encode(), shown(got))
    child.stdout.close()
    report = child.stderr.read()
    child.stderr.close()
    return child.wait(60), report


@case
def output_closed_in_the_middle_with_the_pipe_signal_ignored(run):
    status, report = read_and_close(run, restore_signals=False)
    check((status, report) == (4, b"write fault\n"), f"{status}, {shown(report)}")


@case
def output_closed_in_the_middle_with_the_pipe_signal_as_usual(run):
    status, report = read_and_close(run)
    wanted = ((-signal.SIGPIPE, b""), (4, b"write fault\n"))
    check((status, report) in wanted, f"{status}, {shown(report)}")


@case
def output_to_a_full_device(run):
    run.source(UP)
    with open("/dev/full", "wb") as full:
        run.lucid("p", stdout=full).must(None, 4, "write fault\n")
        run.lucid("--print", "p", stdout=full).must(None, 4, "write fault\n")
        run.lucid("--flat", "p", stdout=full).must(None, 4, "write fault\n")
        run.lucid("--cycles", "p", stdout=full).must(None, 4, "write fault\n")


@case
def output_past_a_limit_of_a_file(run):
    run.source(UP)
    with open(run.path("out"), "wb") as out:
        ended = run.lucid("--count=100000", "p", stdout=out, limits='trap "" XFSZ; ulimit -f 8')
    check((ended.status, ended.report) == (4, b"write fault\n"), f"{ended.status}, {shown(ended.report)}")
    with open(run.path("out"), "rb") as out:
        written = out.read()
    check(lines(*range(100_000)).encode().startswith(written) and written, f"{shown(written)} was written")


@case
def a_report_to_a_full_device_changes_no_status(run):
    run.source("x where x = ; end")
    with open("/dev/full", "wb") as full:
        run.lucid("p", stderr=full).must("", 1)


@case
def both_streams_apart(run):
    run.source(UP)
    run.lucid("--count=2", "--stats", "p").must(lines(0, 1), report="lines 2 held 2 lost 0 cleared 0\n")
    run.source("x where x = 0 fby if x < 2 then x + 1 else y fi; y = y; end")
    run.lucid("p", "--depth=50").must(lines(0, 1, 2), 5, "too deep at time 3\n")


@case
def both_streams_into_one_file_come_in_order(run):
    run.source(UP)
    run.shell('"$LUCID" --count=3 --stats p > all 2>&1; cat all').must(lines(0, 1, 2, "lines 3 held 3 lost 0 cleared 0"))


def sent(run, number):
    """What a run that waits for its input has written when a signal ends it, and its status."""
    run.source(SUM)
    child = run.start(["p"], stdin=subprocess.PIPE)
    child.stdin.write(b"3\n4\n")
    child.stdin.flush()
    got = line_from(child.stdout) + line_from(child.stdout)
    child.send_signal(number)
    out, report = child.communicate(timeout=60)
    return got + out, report, child.returncode


@case
def interrupted_by_a_signal(run):
    for number in (signal.SIGINT, signal.SIGTERM, signal.SIGHUP):
        out, report, status = sent(run, number)
        check((out, report, status) == (b"3\n7\n", b"", -number), f"{shown(out)}, {shown(report)}, {status}")


@case
def interrupted_in_the_middle_of_a_long_run(run):
    run.source(UP)
    with open(run.path("out"), "wb") as out:
        child = run.start(["--count=1000000", "p"], stdout=out)
        time.sleep(0.2)
        child.send_signal(signal.SIGINT)
        run.ended(child, ["p"])
    with open(run.path("out"), "rb") as out:
        written = out.read()
    check(not written or written.endswith(b"\n"), f"the last line isn't whole: {shown(written[-30:])}")


@case
def stopped_and_continued(run):
    run.source(SUM)
    child = run.start(["p"], stdin=subprocess.PIPE)
    child.stdin.write(b"3\n")
    child.stdin.flush()
    line_from(child.stdout)
    for _ in range(3):
        child.send_signal(signal.SIGSTOP)
        time.sleep(0.05)
        child.send_signal(signal.SIGCONT)
        time.sleep(0.05)
    child.stdin.write(b"4\n")
    run.ended(child, ["p"]).must(lines(7))


def ended_within(child, seconds=60):
    """The status of a run, or none where it doesn't end."""
    try:
        return child.wait(seconds)
    except subprocess.TimeoutExpired:
        child.kill()
        child.wait()
        return None


@long_case
def a_thousand_runs_at_once(run):
    run.source("7 fby a")
    given, feed = os.pipe()
    children, names = [], [f"out{k}" for k in range(1000)]
    try:
        for name in names:
            with open(run.path(name), "wb") as out:
                children.append(run.start(["p"], stdin=given, stdout=out, stderr=out))
    except OSError as trouble:
        raise Failed(f"{len(children)} runs were started, and then: {trouble}") from trouble
    finally:
        os.close(feed)
        os.close(given)
        statuses = [ended_within(it) for it in children]
    written = set()
    for name in names:
        with open(run.path(name), "rb") as out:
            written.add(out.read())
    check(set(statuses) == {0} and written == {b"7\n"}, f"statuses {set(statuses)}, {shown(written)}")
