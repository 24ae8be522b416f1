"""The command that shows a demand, over real files and pipes. The outlines are written by hand, by its rules."""
import os

from harness import case, check, long_case, shown

FIB = "f where\n  f = 0 fby g;\n  g = 1 fby f + g;\nend\n"
FIB_AT_4 = """output at 4 is 3   = f at 4
  f at 4 is 3   = g at 3
    g at 3 is 3   = f at 2 + g at 2
      f at 2 is 1   = g at 1
        g at 1 is 1   = f at 0 + g at 0
          f at 0 is 0   = 0
          g at 0 is 1   = 1
      g at 2 is 2   = f at 1 + g at 1
        f at 1 is 1   = g at 0
          g at 0 is 1   (above)
        g at 1 is 1   (above)
"""
USAGE = "usage: lucid_show [--at T] [--as outline|grid|svg] [--depth N] [--names LIST] [--cells N] PROGRAM [NAME=FILE]... | " \
    "lucid_show --steps [--count N] [--policy keep|none|age|last] [--age K] [--room N] [--depth N] [--cells N] PROGRAM [NAME=FILE]...\n"


@case
def a_demand_is_shown(run):
    run.source(FIB)
    run.showing().lucid("p").must(FIB_AT_4)
    run.showing().lucid("--at", "0", "p").must("output at 0 is 0   = f at 0\n  f at 0 is 0   = 0\n")
    run.showing().lucid("p", "--at=1", "--as=outline").must("output at 1 is 1   = f at 1\n  f at 1 is 1   = g at 0\n    g at 0 is 1   = 1\n")


@case
def lines_that_are_left_out_are_counted(run):
    run.source(FIB)
    first = FIB_AT_4.splitlines(keepends=True)[:4]
    run.showing().lucid("p", "--cells", "3").must("".join(first) + ".. (lines left out: 7)\n")
    run.showing().lucid("p", "--cells", "10").must(FIB_AT_4)


@case
def the_lines_of_names_are_shown(run):
    run.source(FIB)
    run.showing().lucid("p", "--names", "f").must("""output at 4 is 3   = f at 4
  f at 4 is 3   = g at 3
      f at 2 is 1   = g at 1
          f at 0 is 0   = 0
        f at 1 is 1   = g at 0
.. (lines of other names: 6)
""")
    run.showing().lucid("p", "--names", "g,f").must(FIB_AT_4)
    run.showing().lucid("p", "--names=g", "--cells=2").must("""output at 4 is 3   = f at 4
    g at 3 is 3   = f at 2 + g at 2
        g at 1 is 1   = f at 0 + g at 0
.. (lines left out: 4)
.. (lines of other names: 4)
""")


@case
def a_name_that_the_program_has_not_is_told(run):
    """The first one. A name of a definition, of a parameter or of an input is one of the program, though no line is of it."""
    run.source("n where n = twice(a); twice(x) = x + y where y = x; end; z = 1; end")
    for form in ["outline", "grid", "svg"]:
        run.showing().lucid("p", "--at=0", f"--as={form}", "--names=n,h,g", given="1\n").must("", 1, "no name h\n")
    for name in ["n", "twice", "x", "y", "a", "z"]:
        run.showing().lucid("p", "--at=0", "--names", name, given="1\n").must()


@case
def a_call_is_of_its_function(run):
    run.source("fact(n) where fact(x) = if x eq 0 then 1 else x * fact(x - 1) fi; n = 0 fby n + 1; end")
    run.showing().lucid("p", "--at", "1", "--names", "fact").must("""output at 1 is 1   = fact(n) at 1
  fact(n) at 1 as call 1 is 1   = x at 1 eq 0 is false, so x at 1 * fact(x - 1) at 1
    fact(x - 1) at 1 in call 1 as call 2 is 1   = x at 1 eq 0 is true, so 1
.. (lines of other names: 5)
""")


@case
def a_search_tells_its_tests(run):
    run.source("n whenever n mod 3 eq 0 where n = 0 fby n + 1; end")
    run.showing().lucid("p", "--at", "1").must("""output at 1 is 3   = n mod 3 eq 0 is true at 0, false at 1 to 2, true at 3, so n at 3
  n at 0 is 0   = 0
  n at 1 is 1   = n at 0 + 1
    n at 0 is 0   (above)
  n at 2 is 2   = n at 1 + 1
    n at 1 is 1   (above)
  n at 3 is 3   = n at 2 + 1
    n at 2 is 2   (above)
""")


@case
def a_call_tells_its_number(run):
    run.source("fact(n) where fact(x) = if x eq 0 then 1 else x * fact(x - 1) fi; n = 0 fby n + 1; end")
    run.showing().lucid("p", "--at", "1").must("""output at 1 is 1   = fact(n) at 1
  fact(n) at 1 as call 1 is 1   = x at 1 eq 0 is false, so x at 1 * fact(x - 1) at 1
    x at 1 in call 1 is 1   = n at 1
      n at 1 is 1   = n at 0 + 1
        n at 0 is 0   = 0
    fact(x - 1) at 1 in call 1 as call 2 is 1   = x at 1 eq 0 is true, so 1
      x at 1 in call 2 is 0   = x at 1 - 1
        x at 1 in call 1 is 1   (above)
""")


@case
def a_sieve_is_shown(run):
    run.source("sieve(n) where n = 2 fby n + 1; sieve(i) = i fby sieve(i whenever i mod first i ne 0); end")
    run.showing().lucid("p", "--at", "1").must("""output at 1 is 3   = sieve(n) at 1
  sieve(n) at 1 as call 1 is 3   = sieve(i whenever i mod first i ne 0) at 0
    sieve(i whenever i mod first i ne 0) at 0 in call 1 as call 2 is 3   = i at 0
      i at 0 in call 2 is 3   = i mod first i ne 0 is false at 0, true at 1, so i at 1
        i at 0 in call 1 is 2   = n at 0
          n at 0 is 2   = 2
        i at 1 in call 1 is 3   = n at 1
          n at 1 is 3   = n at 0 + 1
            n at 0 is 2   (above)
""")


@case
def calls_in_arguments_are_shown(run):
    run.source("""hamming where
  hamming = 1 fby merge(2 * hamming, merge(3 * hamming, 5 * hamming));
  merge(left, right) = if x <= y then x else y fi where x = left upon x <= y; y = right upon y <= x; end;
end""")
    run.showing().lucid("p", "--at", "1").must("""output at 1 is 2   = hamming at 1
  hamming at 1 is 2   = merge(2 * hamming, merge(3 * hamming, 5 * hamming)) at 0
    merge(2 * hamming, merge(3 * hamming, 5 * hamming)) at 0 as call 1 is 2   = x at 0 <= y at 0 is true, so x at 0
      x at 0 in call 1 is 2   = left at 0
        left at 0 in call 1 is 2   = 2 * hamming at 0
          hamming at 0 is 1   = 1
      y at 0 in call 1 is 3   = right at 0
        right at 0 in call 1 is 3   = merge(3 * hamming, 5 * hamming) at 0
          merge(3 * hamming, 5 * hamming) at 0 as call 2 is 3   = x at 0 <= y at 0 is true, so x at 0
            x at 0 in call 2 is 3   = left at 0
              left at 0 in call 2 is 3   = 3 * hamming at 0
                hamming at 0 is 1   (above)
            y at 0 in call 2 is 5   = right at 0
              right at 0 in call 2 is 5   = 5 * hamming at 0
                hamming at 0 is 1   (above)
""")


@case
def lists_in_calls_are_shown(run):
    run.source("""sort(l) where
  sort(l) = if isnull tl(l) then l else merge(sort(odds(l)), sort(odds(tl(l)))) fi;
  odds(l) = if isnull l then [] else if isnull tl(l) then l else hd(l) :: odds(tl(tl(l))) fi fi;
  merge(x, y) = if isnull x then y else if isnull y then x else if hd(x) <= hd(y) then hd(x) :: merge(tl(x), y) else hd(y) :: merge(x, tl(y)) fi fi fi;
  l = [% 2 1 %];
end""")
    both = "merge(sort(odds(l)), sort(odds(tl l))) at 0"
    run.showing().lucid("p", "--at", "0").must(f"""output at 0 is [% 1 2 %]   = sort(l) at 0
  sort(l) at 0 as call 1 is [% 1 2 %]   = isnull tl l at 0 is false, so {both}
    l at 0 in call 1 is [% 2 1 %]   = l at 0
      l at 0 is [% 2 1 %]   = [% 2 1 %]
    {both} in call 1 as call 2 is [% 1 2 %]   = isnull x at 0 is false, so isnull y at 0 is false, so hd x at 0 <= hd y at 0 is false, so hd y at 0 :: merge(x, tl y) at 0
      x at 0 in call 2 is [% 2 %]   = sort(odds(l)) at 0
        sort(odds(l)) at 0 in call 1 as call 3 is [% 2 %]   = isnull tl l at 0 is true, so l at 0
          l at 0 in call 3 is [% 2 %]   = odds(l) at 0
            odds(l) at 0 in call 1 as call 4 is [% 2 %]   = isnull l at 0 is false, so isnull tl l at 0 is false, so hd l at 0 :: odds(tl tl l) at 0
              l at 0 in call 4 is [% 2 1 %]   = l at 0
                l at 0 in call 1 is [% 2 1 %]   (above)
              odds(tl tl l) at 0 in call 4 as call 5 is [% %]   = isnull l at 0 is true, so []
                l at 0 in call 5 is [% %]   = tl tl l at 0
                  l at 0 in call 4 is [% 2 1 %]   (above)
      y at 0 in call 2 is [% 1 %]   = sort(odds(tl l)) at 0
        sort(odds(tl l)) at 0 in call 1 as call 6 is [% 1 %]   = isnull tl l at 0 is true, so l at 0
          l at 0 in call 6 is [% 1 %]   = odds(tl l) at 0
            odds(tl l) at 0 in call 1 as call 7 is [% 1 %]   = isnull l at 0 is false, so isnull tl l at 0 is true, so l at 0
              l at 0 in call 7 is [% 1 %]   = tl l at 0
                l at 0 in call 1 is [% 2 1 %]   (above)
      merge(x, tl y) at 0 in call 2 as call 8 is [% 2 %]   = isnull x at 0 is false, so isnull y at 0 is true, so x at 0
        x at 0 in call 8 is [% 2 %]   = x at 0
          x at 0 in call 2 is [% 2 %]   (above)
        y at 0 in call 8 is [% %]   = tl y at 0
          y at 0 in call 2 is [% 1 %]   (above)
""")


@case
def places_over_space_are_shown(run):
    run.source("u atspace 1 where u = start fby (left + 2 * u + succ u) div 4; left = 0 sby u; start = 0 sby (64 sby 0); end")
    run.showing().lucid("p", "--at", "1").must("""output at 1 is 32   = u at 1 space 1
  u at 1 space 1 is 32   = (left at 0 space 1 + 2 * u at 0 space 1 + u at 0 space 2) div 4
    left at 0 space 1 is 0   = u at 0
      u at 0 is 0   = start at 0
        start at 0 is 0   = 0
    u at 0 space 1 is 64   = start at 0 space 1
      start at 0 space 1 is 64   = 64
    u at 0 space 2 is 0   = start at 0 space 2
      start at 0 space 2 is 0   = 0
""")


@case
def a_moving_average_is_shown(run):
    run.source("avg where avg = (a + next a + next next a) div 3; end")
    run.write("f", "3\n6\n9\n12\n")
    run.showing().lucid("p", "a=f", "--at", "1").must("""output at 1 is 9   = avg at 1
  avg at 1 is 9   = (a at 1 + a at 2 + a at 3) div 3
    a at 1 is 6   (line 2 of a)
    a at 2 is 9   (line 3 of a)
    a at 3 is 12   (line 4 of a)
""")


@case
def a_word_stands_in_quotes_where_it_is_a_constant(run):
    run.source("x where x = if n < 1 then \"low\" else \"high\" fi; n = 1; end")
    run.showing().lucid("p", "--at", "0").must("""output at 0 is high   = x at 0
  x at 0 is high   = n at 0 < 1 is false, so "high"
    n at 0 is 1   = 1
""")


@case
def inputs_tell_their_lines(run):
    run.source("good where good = sales whenever not iserror sales; end")
    run.write("f", "120\n1 2\n80\n")
    said = """output at 1 is 80   = good at 1
  good at 1 is 80   = not iserror sales is true at 0, false at 1, true at 2, so sales at 2
    sales at 0 is 120   (line 1 of sales)
    sales at 1 is error   (line 2 of sales)
    sales at 2 is 80   (line 3 of sales)
"""
    run.showing().lucid("p", "sales=f", "--at", "1").must(said)
    run.showing().lucid("p", "--at", "1", given="120\n1 2\n80\n").must(said)


@case
def a_program_from_a_pipe_is_shown(run):
    os.mkfifo(run.path("pipe"))
    run.showing().shell("printf 1 > pipe & exec \"$LUCID\" pipe").must("output at 4 is 1   = 1\n")


@case
def a_long_value_is_shortened(run):
    run.source("x where x = `abcdefghijklmnopqrstuvwxyz'; end")
    ended = run.showing().lucid("p", "--at", "0").must()
    check(b"`abcdefghijklmnopqrs.. (28 bytes)" in ended.out, shown(ended.out))


@case
def help_and_version_are_told(run):
    check(b"--cells N" in run.showing().lucid("--help").must().out, "--help tells no --cells")
    with open(os.path.join(run.top, "VERSION"), encoding="utf-8") as version:
        run.showing().lucid("--version").must(f"lucid_show {version.read().strip()}\n")
    run.source("1")
    run.showing().lucid("p", "--help").must("", 2, USAGE)


@case
def refusals_are_those_of_the_command(run):
    run.source("x where x = x; end", "deep")
    for words, status in ((["deep"], 5), (["missing"], 3), (["deep", "y=f"], 2)):
        told = run.lucid("--why", "4", *words).must("", status)
        run.showing().lucid(*words).must("", status, told.report.decode())
    for words in ([], ["--names", "x,", "deep"], ["--as", "other", "deep"], ["--at", "x", "deep"], ["deep", "deep"], ["--steps"]):
        run.showing().lucid(*words).must("", 2, USAGE)


@case
def a_deep_demand_needs_little_stack(run):
    run.source("x where x = 0 fby x + 1; end")
    out = run.showing().lucid("p", "--at=20000", limits="ulimit -s 256").must().out.decode().splitlines()
    check(len(out) == 2002 and out[-1] == ".. (lines left out: 18001)", shown(out[-1]))


@long_case
def a_demand_of_a_hundred_thousand_values_is_shown(run):
    run.needs_a_plain_command()
    run.source("a asa a eq 0")
    run.write("f", "1\n" * 99_999 + "0\n")
    words = ["p", "a=f", "--at=0", "--depth=200000", "--cells=1000000"]
    out = run.showing().lucid(*words, limits="ulimit -v 204800").must().out.decode().splitlines()
    check(len(out) == 100_001, shown(str(len(out))))
    check(out[0] == "output at 0 is 0   = a eq 0 is false at 0 to 99998, true at 99999, so a at 99999", shown(out[0]))
    check(out[-1] == "  a at 99999 is 0   (line 100000 of a)", shown(out[-1]))


@case
def a_line_takes_no_time_for_those_below(run):
    run.source(FIB)
    out = run.showing().lucid("p", "--at", "90").must().out.decode()
    check(out.startswith("output at 90 is 2880067194370816120   = f at 90\n  f at 90 is 2880067194370816120   = g at 89\n"), shown(out[:200]))


@case
def a_thousand_levels_are_told_by_their_numbers(run):
    run.source("x where x = 0 fby x + 1; end")
    out = run.showing().lucid("p", "--at", "1000").must().out.decode().splitlines()
    check(len(out) == 1002, shown(str(len(out))))
    check(out[40] == " " * 80 + "x at 961 is 961   = x at 960 + 1", shown(out[40]))
    check(out[41] == " " * 80 + "41: x at 960 is 960   = x at 959 + 1", shown(out[41]))
