"""Sources and their canonical sources, worked out by hand from the grammar; and sources and the trees that they spell.

Trees are the same up to places exactly where their canonical sources are.
"""
from harness import case, check, shown

# Operators in the places of operators, looser and tighter ones and those of the same level.
OPERATORS = [
    ("a+b*c wvr(p)", "a + b * c whenever p"),
    ("(a - b) - (c - d)", "a - b - (c - d)"),
    ("(a fby b) fby c", "(a fby b) fby c"),
    ("a fby (b fby c)", "a fby b fby c"),
    ("(a sby b) fby c", "(a sby b) fby c"),
    ("a sby (b fby c)", "a sby b fby c"),
    ("(a whenever p) asa q", "a whenever p asa q"),
    ("a whenever (p asa q)", "a whenever (p asa q)"),
    ("(a fby b) whenever p", "(a fby b) whenever p"),
    ("a fby (b whenever p)", "a fby b whenever p"),
    ("(a upon p) attime (x atspace y)", "a upon p attime (x atspace y)"),
    ("(a or b) or (c or d)", "a or b or (c or d)"),
    ("(a and b) or (c and d)", "a and b or c and d"),
    ("(a or b) and (c or d)", "(a or b) and (c or d)"),
    ("(a and b) and (c and d)", "a and b and (c and d)"),
    ("not (not a)", "not not a"),
    ("not (a and b)", "not (a and b)"),
    ("(not a) and (not b)", "not a and not b"),
    ("not (a eq b)", "not a eq b"),
    ("(not a) eq (not b)", "(not a) eq (not b)"),
    ("(a eq b) ne c", "(a eq b) ne c"),
    ("a < (b <= c)", "a < (b <= c)"),
    ("(a > b) or (c >= d)", "a > b or c >= d"),
    ("(a :: b) eq (c <> d)", "a :: b eq c <> d"),
    ("(a cmp b) :: c", "(a cmp b) :: c"),
    ("(a :: b) :: c", "(a :: b) :: c"),
    ("a :: (b <> (c ^ d))", "a :: b <> c ^ d"),
    ("a ^ (b + c)", "a ^ b + c"),
    ("(a ^ b) + c", "(a ^ b) + c"),
    ("a + (b ^ c)", "a + (b ^ c)"),
    ("(a + b) - c", "a + b - c"),
    ("a + (b - c)", "a + (b - c)"),
    ("(a + b) * c", "(a + b) * c"),
    ("a + (b * c)", "a + b * c"),
    ("(a * b) div c", "a * b div c"),
    ("a * (b mod c)", "a * (b mod c)"),
    ("(a ** b) ** c", "(a ** b) ** c"),
    ("a ** (b ** c)", "a ** b ** c"),
    ("(a * b) ** c", "(a * b) ** c"),
    ("a * (b ** c)", "a * b ** c"),
    ("(- 2) ** 2", "- 2 ** 2"),
    ("- (2 ** 2)", "- (2 ** 2)"),
    ("a ** (- b)", "a ** - b"),
    ("a-(-(-b))", "a - - - b"),
    ("first (next a)", "first next a"),
    ("next (a + b)", "next (a + b)"),
    ("(next a) + b", "next a + b"),
    ("initial(succ(a)) sby b", "initial succ a sby b"),
    ("(abs(hd(tl x))) :: []", "abs hd tl x :: []"),
    ("length(a ^ b)", "length (a ^ b)"),
]

# Blocks, calls, choices and constants, alone and in each other's places.
OTHERS = [
    ("x where x = 0 fby x + 1; end", "x where x = 0 fby x + 1; end"),
    ("(f(a)) whenever ((p))", "f(a) whenever p"),
    ("f((x where x = 1; end),(2))", "f(x where x = 1; end, 2)"),
    ("f(-a,g((b)))", "f(- a, g(b))"),
    ("substr((a), (b where end), (c fby d))", "substr(a, b where end, c fby d)"),
    ("nth (l,(not i))", "nth(l, not i)"),
    ("hd (nth(l, 0))", "hd nth(l, 0)"),
    ("if (a where end) then (b fby c) else (not d) fi", "if a where end then b fby c else not d fi"),
    ("(if a then b else c fi) ** 2", "if a then b else c fi ** 2"),
    ("- (if a then b else c fi)", "- if a then b else c fi"),
    ("(a where end) where end", "a where end where end"),
    ("(a where end) + (b where end)", "(a where end) + (b where end)"),
    ("next (a where end)", "next (a where end)"),
    ("a fby (b where end)", "a fby (b where end)"),
    ("(a fby b) where end", "a fby b where end"),
    ("x where x=(0 fby x+1);f(a,b)=(a - b);y is current(x);end", "x where x = 0 fby x + 1; f(a, b) = a - b; y is current x; end"),
    ("x where x = (y where y = 1; end); end", "x where x = y where y = 1; end; end"),
    (" // a comment\n\ta", "a"),
    ("007", "7"),
    ("0 fby 170141183460469231731687303715884105727", "0 fby 170141183460469231731687303715884105727"),
    ("\"dog\" fby`it is'", "\"dog\" fby `it is'"),
    ("[%%]", "[]"),
    ("[%01  dog\t[%%] `a b' -0 -5\n%]", "[% 1 dog [% %] `a b' 0 -5 %]"),
    ("true and false", "true and false"),
    ("iseod(eod)", "iseod eod"),
    ("iserror(error)", "iserror error"),
    ("mkword(mkstring(1))", "mkword mkstring 1"),
    ("isint(isword(isstring(islist x)))", "isint isword isstring islist x"),
    ("istruth(isnull(isatom x))", "istruth isnull isatom x"),
]

# Programs that are their own canonical sources.
CANONICAL = [
    "1",
    "x where x = 0 fby x + 1; end",
    "f where f = 0 fby g; g = 1 fby f + g; end",
    "n whenever n mod 3 eq 0 where n = 0 fby n + 1; end",
    "x upon p where x = 0 fby x + 1; p = true fby false fby p; end",
    "x attime 3 - x where x = 0 fby x + 1; end",
    "f asa i eq n where n is current k; i = 0 fby i + 1; f = 1 fby f * (i + 1); end where k = 0 fby k + 1; end",
    "c where c = n where e is current a; n = if a eq e then 1 else 0 fi fby n + if next a eq e then 1 else 0 fi; end; end",
    "fact(n) where fact(n) = if n eq 0 then 1 else n * fact(n - 1) fi; n = 0 fby n + 1; end",
    "sum(x) + sum(y) where sum(z) = s where s = z fby s + next z; end; x = 1 fby x + 1; y = 10; end",
    "x where x = [] fby i :: x; i = 0 fby i + 1; end",
    "total :: largest :: [] where total = sale fby total + next sale; largest = sale fby if next sale > largest then next sale else largest fi; end",
    "(1 fby 2) attime 9223372036854775807",
    "false and x where x = x; end",
    "x where x = `a' fby x ^ x; end",
    "v2 where v0 = 1 fby (v0 + 1) mod 1000; v1 = v0 fby (v1 + v0) mod 1000; v2 = v1 fby (v2 + v1) mod 1000; end",
    "m where m is current n; end where n is current k; end where k = 0 fby k + 1; end",
]

# A source, and its fully parenthesised text. Operators beside operators, of looser and tighter levels and of the same one, and in the places of
# other forms.
GROUPED = [
    ("a or b or c", "((a or b) or c)"),
    ("a and b and c", "((a and b) and c)"),
    ("a or b and c", "(a or (b and c))"),
    ("a and b or c", "((a and b) or c)"),
    ("a fby b fby c", "(a fby (b fby c))"),
    ("a sby b fby c", "(a sby (b fby c))"),
    ("a fby b asa c", "(a fby (b asa c))"),
    ("a asa b fby c", "((a asa b) fby c)"),
    ("a whenever b asa c upon d", "(((a whenever b) asa c) upon d)"),
    ("a wvr b or c", "(a whenever (b or c))"),
    ("a attime b atspace c", "((a attime b) atspace c)"),
    ("not a and b", "((not a) and b)"),
    ("not a eq b", "(not (a eq b))"),
    ("a and not not b or c", "((a and (not (not b))) or c)"),
    ("a eq b and c ne d", "((a eq b) and (c ne d))"),
    ("a < b or c >= d", "((a < b) or (c >= d))"),
    ("a <= b + c", "(a <= (b + c))"),
    ("a cmp b :: c", "(a cmp (b :: c))"),
    ("a :: b > c", "((a :: b) > c)"),
    ("a :: b <> c ^ d", "(a :: (b <> (c ^ d)))"),
    ("a ^ b + c", "(a ^ (b + c))"),
    ("a + b ^ c", "((a + b) ^ c)"),
    ("a - b - c", "((a - b) - c)"),
    ("a - b + c", "((a - b) + c)"),
    ("a + b * c", "(a + (b * c))"),
    ("a * b + c", "((a * b) + c)"),
    ("a div b * c mod d", "(((a div b) * c) mod d)"),
    ("a * b ** c", "(a * (b ** c))"),
    ("a ** b * c", "((a ** b) * c)"),
    ("2 ** 3 ** 2", "(2 ** (3 ** 2))"),
    ("- 2 ** 2", "((- 2) ** 2)"),
    ("2 ** - 2", "(2 ** (- 2))"),
    ("- a - - b", "((- a) - (- b))"),
    ("abs hd tl a :: []", "((abs (hd (tl a))) :: [])"),
    ("first next a + b", "((first (next a)) + b)"),
    ("initial succ a sby b", "((initial (succ a)) sby b)"),
    ("length a ^ b", "((length a) ^ b)"),
    ("iseod a or iserror b", "((iseod a) or (iserror b))"),
    ("mkword mkstring a eq b", "((mkword (mkstring a)) eq b)"),
    ("isint a ne isword b", "((isint a) ne (isword b))"),
    ("a fby b where end", "((a fby b) where end)"),
    ("a where end where end", "((a where end) where end)"),
    ("if a or b then c fby d else not e fi", "(if (a or b) then (c fby d) else (not e) fi)"),
    ("f(a + b * c, - d) - e", "(f((a + (b * c)), (- d)) - e)"),
    ("nth(a :: b, c - d) mod e", "(nth((a :: b), (c - d)) mod e)"),
    ("x where x = 0 fby x + 1; y is current x; f(a) = a - b - c; end", "(x where x = (0 fby (x + 1)); y is current x; f(a) = ((a - b) - c); end)"),
]

# Accepted sources that are no worked programs; and, as accepted as those, the deepest tree.
ACCEPTED = [
    "x where x = 1; x = 2; end",
    "total :: largest :: [] where // sales\ntotal = sale fby total + next sale; largest = sale fby if next sale > largest then next sale else largest fi; end",
    "f(1) where f = 2; end",
    "f where f(x) = x; end",
    "f(1, 2) where f(x) = x; end",
    "f(1)",
    "a+b*c wvr(p)",
    "(a - b) - (c - d)",
    "x where x = 0 fby y; y = next x; end",
    "b + a + b",
    "a + x where x = x; end",
    "(a + x) + (b + x) where x = x; end",
    "v2 where\nv0 = 1 fby (v0 + 1) mod 1000;\nv1 = v0 fby (v1 + v0) mod 1000;\nv2 = v1 fby (v2 + v1) mod 1000;\nend\n",
    "not " * 399 + "true",
]


def canonical(run, source):
    """The canonical source of a source, without its line end."""
    run.source(source)
    text = run.lucid("--print", "p").must().out.decode()
    check(text.endswith("\n"), f"{source}: {shown(text)}")
    return text[:-1]


@case
def canonical_sources(run):
    for source, wanted in [*OPERATORS, *OTHERS, *((it, it) for it in CANONICAL)]:
        got = canonical(run, source)
        check(got == wanted, f"{source}: {shown(got)}, not {shown(wanted)}")


@case
def sources_spell_the_trees_of_their_parenthesised_texts(run):
    for source, parenthesised in GROUPED:
        got, wanted = canonical(run, source), canonical(run, parenthesised)
        check(got == wanted, f"{source}: {shown(got)}, not {shown(wanted)}")


@case
def printed_texts_spell_the_same_trees(run):
    for source in ACCEPTED:
        text = canonical(run, source)
        check(canonical(run, text) == text, f"{shown(source)}: {shown(text)}")
