"""Tables as texts: which are read, which are sound and which row is wrong in another, and the rows of compiled sources.

The rules are those of the flat form: a text has a line for each row, and a table is sound by seven rules.
"""
from harness import case, check, shown

# A sound table: a function of one parameter, called with the constant; a current name, read in its block; an input.
LINES = [
    "lucid flat 1\n",
    "scope 0 called\n",
    "scope 0 frozen\n",
    "input x\n",
    "const 1\n",
    "node 1 refer 1 1\n",
    "node 0 const 0\n",
    "node 0 call 2 0 0\n",
    "node 2 refer 3 1\n",
    "node 0 freeze 3\n",
    "node 0 apply add 2 4 0\n",
    "plain 0 5\n",
    "parameter 1 0\n",
    "called 1 0\n",
    "current 2 1\n",
    "place 0 2 1\n",
]

# A line of the table above, from 0, another text in its place, and what is said of the table.
ROWS = [
    # The table itself.
    (0, "lucid flat 1\n", "a program"),
    # The text: a word, an order, a line that isn't ended, a number with a leading zero.
    (0, "lucid flat 1 \n", "line 1 is no flat line"),
    (5, "nod 1 refer 1 1\n", "line 6 is no flat line"),
    (3, "const 2\n", "a program"),
    (4, "const 1\ninput y\n", "line 6 is no flat line"),
    (15, "place 0 2 01\n", "line 16 is no flat line"),
    # Rule 1: each scope but the first has a lower parent.
    (1, "scope 1 called\n", "scope 1 is wrong"),
    (2, "scope 2 frozen\n", "scope 2 is wrong"),
    (2, "scope 4294967295 frozen\n", "scope 2 is wrong"),
    # Rule 2: parts have lower numbers and the node's scope; constants and inputs are there; there is 0 past an operator's arity.
    (6, "node 0 const 1\n", "node 1 is wrong"),
    (6, "node 0 input 1\n", "node 1 is wrong"),
    (6, "node 0 input 0\n", "a program"),
    (9, "node 0 freeze 4\n", "node 4 is wrong"),
    (9, "node 0 freeze 1\n", "node 4 is wrong"),
    (9, "node 0 first 3\n", "node 4 is wrong"),
    (10, "node 0 apply add 2 5 0\n", "node 5 is wrong"),
    (10, "node 0 apply add 2 4 1\n", "node 5 is wrong"),
    (10, "node 0 apply neg 2 4 0\n", "node 5 is wrong"),
    (10, "node 0 if 1 2 3\n", "node 5 is wrong"),
    (10, "node 3 const 0\nnode 0 apply add 2 4 0\n", "node 5 is wrong"),
    # Rule 3: a reference leads to a name of its scope or one round it, at the depth of its level, that is no call's.
    (5, "node 1 refer 1 0\n", "node 0 is wrong"),
    (5, "node 1 refer 2 1\n", "node 0 is wrong"),
    (5, "node 1 refer 3 1\n", "node 0 is wrong"),
    (5, "node 1 refer 4 1\n", "node 0 is wrong"),
    (5, "node 1 refer 0 0\n", "a program"),
    # Rule 4: a call leads to a called name right inside its scope or one round it, and its place has its scope and that name.
    (7, "node 0 call 2 0 1\n", "node 2 is wrong"),
    (7, "node 0 call 0 0 0\n", "node 2 is wrong"),
    (7, "node 0 call 2 1 0\n", "node 2 is wrong"),
    (15, "place 1 2 0\n", "node 2 is wrong"),
    # Rule 5: bodies stand where they have to, and names have scopes of their kind.
    (11, "plain 1 5\n", "name 0 is wrong"),
    (11, "plain 3 5\n", "name 0 is wrong"),
    (11, "called 0 5\n", "name 0 is wrong"),
    (11, "parameter 2 0\n", "name 0 is wrong"),
    (14, "current 2 0\n", "name 3 is wrong"),
    # Rule 6: a place's actuals stand in its scope, and are enough for each parameter of its name's scope.
    (15, "place 0 2\n", "place 0 is wrong"),
    (15, "place 0 2 0\n", "place 0 is wrong"),
    (15, "place 0 2 1\nplace 0 1 1\n", "place 1 is wrong"),
    (11, "parameter 1 4294967295\n", "place 0 is wrong"),
    # Rule 7: the inputs' names differ.
    (3, "input x\ninput x\n", "the root is wrong"),
]

# The roots of the table as it is. Rule 7: the root is there, and stands in scope 0.
ROOTS = [("root 0\n", "the root is wrong"), ("root 6\n", "the root is wrong"), ("root 5", "line 17 is no flat line")]

TEXTS = [
    ("lucid flat 1\nconst 1\nnode 0 const 0\nroot 0\n", "a program"),
    ("lucid flat 1\nconst 1\nnode 0 refer 0 0\nroot 0\n", "node 0 is wrong"),
    ("lucid flat 1\nconst 1\nnod 0 const 0\nroot 0\n", "line 3 is no flat line"),
]

# Why a text breaks, the text, and the line.
BROKEN = [
    ("an empty file", "", 1),
    ("another first line", "lucid flat 2\nroot 0\n", 1),
    ("nothing behind the first line", "lucid flat 1\n", 2),
    ("an empty line", "lucid flat 1\n\nroot 0\n", 2),
    ("no line feed at the end", "lucid flat 1\nroot 0", 2),
    ("no root", "lucid flat 1\nconst 1\n", 3),
    ("a second root", "lucid flat 1\nroot 0\nroot 0\n", 3),
    ("a byte behind the root", "lucid flat 1\nroot 0\nr", 3),
    ("an input too late", "lucid flat 1\nconst 1\ninput x\n", 3),
    ("a leading zero", "lucid flat 1\nroot 00\n", 2),
    ("the number 2^32", "lucid flat 1\nroot 4294967296\n", 2),
    ("two blanks", "lucid flat 1\nroot  0\n", 2),
    ("a carriage return", "lucid flat 1\nroot 0\r\n", 2),
    ("another root scope", "lucid flat 1\nscope 0 root\n", 2),
    ("a text of -0", "lucid flat 1\nconst -0\n", 2),
    ("a reserved word", "lucid flat 1\ninput first\n", 2),
    ("a capital letter", "lucid flat 1\nnode 0 Const 0\n", 2),
    ("a mark", "lucid flat 1\nnode 0 apply + 0 1 0\n", 2),
    ("too many", "lucid flat 1\nnode 0 fby 1 2 3\n", 2),
    ("too few", "lucid flat 1\nplain 0\n", 2),
]

# Another sound table: a plain name that is a call of a function, whose right side is its parameter; a frozen time with a current name; their sum.
# Scope 3 has no rows.
SOUND = [
    "lucid flat 1\n",
    "scope 0 called\n",
    "scope 0 frozen\n",
    "scope 2 called\n",
    "input x\n",
    "input y\n",
    "const 1\n",
    "node 0 input 1\n",
    "node 1 refer 1 1\n",
    "node 0 call 2 0 0\n",
    "node 2 refer 3 1\n",
    "node 0 freeze 3\n",
    "node 0 refer 0 0\n",
    "node 0 apply add 4 5 0\n",
    "plain 0 2\n",
    "parameter 1 0\n",
    "called 1 1\n",
    "current 2 0\n",
    "place 0 2 0\n",
    "root 6\n",
]

# Other lines of it, by their numbers, why the table isn't sound then, and what is said of it.
UNSOUND = [
    ({13: "node 0 apply add 4 5 1\n"}, "the numbers past an arity are 0", "node 6 is wrong"),
    ({12: "node 0 refer 0 1\n"}, "a reference has the depth of its name", "node 5 is wrong"),
    ({9: "node 0 call 0 0 0\n"}, "a call leads to a called name", "node 2 is wrong"),
    ({13: "node 4 const 0\n", 19: "root 5\n"}, "the scope of a row is there", "node 6 is wrong"),
    ({14: "plain 0 1\n"}, "a body stands in the scope of its name", "name 0 is wrong"),
    ({18: "place 0 2 1\n"}, "an actual stands in the scope of its place", "place 0 is wrong"),
    ({19: "root 1\n"}, "the root stands in scope 0", "the root is wrong"),
    ({5: "input x\n"}, "the names of inputs differ", "the root is wrong"),
]

# Names of inputs of the table of the constant 1, its root, whether that is a program, and why.
INPUTS = [
    ("x x", 0, False, "one name is one input"),
    ("x y", 1, False, "the root is a node"),
    ("rate1 rate2", 0, True, "the last byte differs"),
    ("rate ra rates", 0, True, "one is a front of another"),
    ("rate Rate", 0, True, "a capital is another byte"),
    ("rate ra rates ra", 0, False, "a front twice"),
    ("x c a d b x", 0, False, "the first is the last"),
]

# Names behind the names xa to xz, and whether they differ from all of them.
FAR_APART = [("x", True), ("xaa", True), ("xa", False), ("xm", False), ("xz", False)]


def said(run, text):
    """What is said of a table: that it is a program, that a row is wrong, or that it is no table from a line on."""
    run.write("table", text)
    run.write("none", "")
    names = dict.fromkeys(it[6:] for it in text.splitlines() if it.startswith("input "))
    ended = run.lucid("--from-flat", "--count=1", "--depth=50", "table", *(f"{it}=none" for it in names))
    if ended.status in (0, 5):
        return "a program"
    check(ended.status == 1 and ended.report.endswith(b"\n") and not ended.out, f"{ended.words}: {ended.status}, {shown(ended.report)}")
    report = ended.report.decode()[:-1]
    return report.removeprefix("flat ").replace("root is", "the root is") if report.startswith("flat ") else report


def must_be_said(run, text, wanted, why=""):
    got = said(run, text)
    check(got == wanted, f"{why} {shown(text)}: {got}, not {wanted}")


def with_lines(lines, others):
    return "".join(others.get(number, line) for number, line in enumerate(lines))


@case
def each_rule_alone(run):
    for number, line, wanted in ROWS:
        must_be_said(run, with_lines(LINES, {number: line}) + "root 5\n", wanted)
    for root, wanted in ROOTS:
        must_be_said(run, "".join(LINES) + root, wanted)
    for text, wanted in TEXTS:
        must_be_said(run, text, wanted)


@case
def texts_that_break(run):
    for why, text, line in BROKEN:
        run.write("table", text)
        ended = run.lucid("--from-flat", "table")
        check((ended.status, ended.report.decode()) == (1, f"line {line} is no flat line\n"), f"{why}: {ended.status}, {shown(ended.report)}")


@case
def each_rule_of_another_table(run):
    must_be_said(run, "".join(SOUND), "a program")
    for others, why, wanted in UNSOUND:
        must_be_said(run, with_lines(SOUND, others), wanted, why)


def one_with(names, root=0):
    """The table of the constant 1 with these inputs."""
    return "lucid flat 1\n" + "".join(f"input {it}\n" for it in names) + f"const 1\nnode 0 const 0\nroot {root}\n"


@case
def inputs_are_told_apart_by_all_their_bytes(run):
    run.write("table", one_with("xy"))
    run.lucid("--from-flat", "--count=1", "table", "x=table", "y=table").must("1\n")
    for names, root, is_program, why in INPUTS:
        must_be_said(run, one_with(names.split(), root), "a program" if is_program else "the root is wrong", why)
    for name, differs in FAR_APART:
        names = [f"x{chr(it)}" for it in range(ord("a"), ord("z") + 1)] + [name]
        must_be_said(run, one_with(names), "a program" if differs else "the root is wrong", name)


# A source, and its table's scopes, nodes, names and call places. By hand, from how a program is a table: a function has a called scope, and a
# block with a current definition a frozen one; a current name's right side stands outside its block; a level counts the frames of the scope that
# a name is defined in. A node stands behind its parts, a subject before the definitions, and the names of calls behind all others.
COMPILED = [
    (
        "f(5) where f(a) = a fby f(x); x is current y; end",
        "root in 0 / frozen in 0 / called in 1",
        "1 / 1 calls 2 at 1 / 2 refers 0 at 2 / 2 refers 1 at 1 / 2 calls 3 at 1 / 2 / 0 / 0",
        "parameter 0 in 2 / current 6 in 1 / called 5 in 2 / called 5 in 2",
        "2 in 1: 0 / 3 in 2: 3",
    ),
    (
        "x where x = 1; end",
        "root in 0",
        "0 refers 0 at 0 / 0",
        "plain 1 in 0",
        "",
    ),
    (
        "f(1) where f(a) = g(2) where g(b) = a + b; end; end",
        "root in 0 / called in 0 / called in 1",
        "0 / 0 calls 2 at 0 / 1 / 1 calls 3 at 1 / 2 refers 0 at 1 / 2 refers 1 at 2 / 2",
        "parameter 0 in 1 / parameter 0 in 2 / called 3 in 1 / called 6 in 2",
        "2 in 0: 0 / 3 in 1: 2",
    ),
    (
        "f(1, 2) where f(a, b) = x where x is current b; end; end",
        "root in 0 / called in 0 / frozen in 1",
        "0 / 0 / 0 calls 3 at 0 / 2 refers 2 at 2 / 1 refers 1 at 1 / 1",
        "parameter 0 in 1 / parameter 1 in 1 / current 4 in 2 / called 5 in 1",
        "3 in 0: 0 1",
    ),
    (
        "(x where x is current k; end) + (x where x is current k; end) where k = 1; end",
        "root in 0 / frozen in 0 / frozen in 0",
        "1 refers 0 at 1 / 0 refers 2 at 0 / 0 / 2 refers 1 at 1 / 0 refers 2 at 0 / 0 / 0 / 0",
        "current 1 in 1 / current 4 in 2 / plain 7 in 0",
        "",
    ),
    (
        "f(f(1)) where f(a) = a; end",
        "root in 0 / called in 0",
        "0 / 0 calls 1 at 0 / 0 calls 2 at 0 / 1 refers 0 at 1",
        "parameter 0 in 1 / called 3 in 1 / called 3 in 1",
        "1 in 0: 0 / 2 in 0: 1",
    ),
]


class Table:
    """The rows of a source's table, each a list of words, by their kinds."""

    def __init__(self, run, source):
        run.source(source)
        text = run.lucid("--flat", "p").must().out.decode()
        self.rows = [it.split(" ") for it in text.splitlines()[1:]]

    def of(self, *kinds):
        return [it for it in self.rows if it[0] in kinds]

    def scopes(self):
        return " / ".join(["root in 0", *(f"{kind} in {parent}" for _, parent, kind in self.of("scope"))])

    def nodes(self):
        told = []
        for _, scope, form, *numbers in self.of("node"):
            more = {"refer": " refers {0} at {1}", "call": " calls {0} at {2}"}.get(form, "")
            told.append(scope + more.format(*numbers))
        return " / ".join(told)

    def names(self):
        return " / ".join(f"{kind} {number} in {scope}" for kind, scope, number in self.of("plain", "parameter", "current", "called"))

    def places(self):
        return " / ".join(f"{name} in {scope}: {' '.join(actuals)}" for _, scope, name, *actuals in self.of("place"))

    def counts(self):
        return [len(self.of("node")), len(self.of("plain", "parameter", "current", "called")), len(self.of("place"))]


@case
def rows_in_their_scopes(run):
    for source, *wanted in COMPILED:
        table = Table(run, source)
        got = [table.scopes(), table.nodes(), table.names(), table.places()]
        check(got == wanted, f"{source}: {shown(got)}, not {shown(wanted)}")


@case
def a_function_and_a_current_name(run):
    # the parts of a node stand before it, the subject before the definitions, and the calls after all other names
    table = Table(run, "f(5) where f(a) = a fby f(x); x is current y; end")
    nodes = [" ".join(it[2:]) for it in table.of("node")]
    check(len(nodes) == 8 and len(table.of("input")) == 1 and table.of("root") == [["root", "7"]], shown(table.rows))
    got = [nodes[7], nodes[1], nodes[4], nodes[5], nodes[6]]
    check(got == ["freeze 1", "call 2 0 1", "call 3 1 1", "fby 2 4", "input 0"], shown(nodes))


@case
def large_programs_are_compiled(run):
    # Of many names the source has nearly a million bytes. Each name has a sum's three nodes, the first its constant alone; the subject has one.
    names = "x0 where x0 = 0;\n" + "".join(f"x{k} = x{k - 1} + 1;\n" for k in range(1, 48_000)) + "end"
    check(Table(run, names).counts() == [144_000 - 1, 48_000, 0], "many names")
    # Each function has a parameter and is called once: a call has the three nodes of a sum and its own; the first function has one node, the
    # subject two.
    functions = "f0(1) where f0(y) = y;\n" + "".join(f"f{k}(y) = f{k - 1}(y + 1);\n" for k in range(1, 10_000)) + "end"
    check(Table(run, functions).counts() == [40_000 - 1, 20_000, 10_000], "many functions")
    check(Table(run, "not " * 399 + "true").counts() == [400, 0, 0], "the deepest tree")
