"""Grids and pictures of demands, compared with what the certificates tell: by their rules, without the command that shows them."""
import re
import shutil
import subprocess
import xml.etree.ElementTree as tree

from harness import case, check, lines, shown

SVG = "{http://www.w3.org/2000/svg}"
BOXES = ("inner", "leaf", "true", "false")

# Programs, the times at which they are shown, and their inputs.
SHOWN = {
    "fibonacci": ("f where f = 0 fby g; g = 1 fby f + g; end", 5, {}),
    "factorial": ("fact(n) where fact(x) = if x eq 0 then 1 else x * fact(x - 1) fi; n = 0 fby n + 1; end", 3, {}),
    "nested": ("f asa i eq k where k is current n; i = 0 fby i + 1; f = 1 fby f * (i + 1); end where n = 0 fby n + 1; end", 3, {}),
    "search": ("n whenever n mod 3 eq 0 where n = 0 fby n + 1; end", 2, {}),
    "tested name": ("x whenever p where x = 0 fby x + 1; p = x mod 3 eq 0; end", 2, {}),
    "search in a test": ("n asa n eq (m asa m > 1) where n = 0 fby n + 1; m = n; end", 1, {}),
    "sieve": ("sieve(n) where n = 2 fby n + 1; sieve(i) = i fby sieve(i whenever i mod first i ne 0); end", 4, {}),
    "hamming": (
        "hamming where hamming = 1 fby merge(2 * hamming, merge(3 * hamming, 5 * hamming));"
        " merge(left, right) = if x <= y then x else y fi where x = left upon x <= y; y = right upon y <= x; end; end",
        8,
        {},
    ),
    "average": ("avg where avg = (a + next a + next next a) div 3; end", 1, {"a": lines(3, 6, 9, 12)}),
    "mergesort": (
        "sort(l) where sort(l) = if isnull tl(l) then l else merge(sort(odds(l)), sort(odds(tl(l)))) fi;"
        " odds(l) = if isnull l then [] else if isnull tl(l) then l else hd(l) :: odds(tl(tl(l))) fi fi;"
        " merge(x, y) = if isnull x then y else if isnull y then x else if hd(x) <= hd(y) then hd(x) :: merge(tl(x), y) else hd(y) :: merge(x, tl(y)) fi fi fi;"
        " l = [% 3 1 2 %]; end",
        0,
        {},
    ),
    "heat": ("u atspace 1 where u = start fby (left + 2 * u + succ u) div 4; left = 0 sby u; start = 0 sby (64 sby 0); end", 2, {}),
    "marks": ('x where x = `<&>"' + "'; end", 0, {}),
}


class Demand:
    """What a certificate tells: what was asked for and the tests that ask for nothing, each once, and at which of these each looked first."""

    def __init__(self, flat, why):
        self.forms = [it.split()[2:] for it in flat.splitlines() if it.startswith("node ")]
        self.rows = [it.split(" ") for it in why.splitlines() if it.startswith("j ")]
        self.cells = []
        waiting = self.needs(len(self.rows) - 1)
        while waiting:
            cell = self.asked(waiting.pop(0))
            if cell not in self.cells:
                self.cells.append(cell)
                waiting = self.needs(cell[1]) + waiting if cell[0] == "value" else waiting
        tests = sorted({it for number in range(len(self.rows)) for it in self.tests(number)})
        self.boxes = self.cells + [("value", it) for it in tests if self.asked(it) is None]
        self.truths = {self.asked(it) or ("value", it): (self.rows[it][3], self.rows[it][-1] == "true") for it in tests}
        self.arrows = [(box, it) for box in self.boxes if box[0] == "value" for it in self.looks(box[1])]

    def uses(self, number):
        row = self.rows[number]
        return [int(it) for it in row[6 : 6 + int(row[5])]]

    def asked(self, number):
        """What a judgment asks for: a value by its judgment, an element of an input, or nothing."""
        row = self.rows[number]
        form = self.forms[int(row[1])]
        if form[0] == "input":
            return ("element", int(form[1]), int(row[3]))
        return ("value", self.uses(number)[0]) if form[0] in ("refer", "call") else None

    def tests(self, number):
        """The tests of a search: its judgments of the second part."""
        form = self.forms[int(self.rows[number][1])]
        return [it for it in self.uses(number) if self.rows[it][1] == form[2]] if form[0] in ("whenever", "asa", "upon") else []

    def looks(self, number):
        """The boxes at which the value of a judgment looked first, each once."""
        waiting, found = [number], []
        while waiting:
            it = waiting.pop(0)
            tests = self.tests(it)
            if self.asked(it) is None:
                waiting += [use for use in self.uses(it) if use not in tests]
                found += [self.asked(test) or ("value", test) for test in tests]
            else:
                found.append(self.asked(it))
        return list(dict.fromkeys(found))

    def needs(self, number):
        """The judgments that ask for what one was computed from, the first of each."""
        waiting, seen, found, cells = [number], set(), [], []
        while waiting:
            it = waiting.pop(0)
            if it in seen:
                continue
            seen.add(it)
            cell = self.asked(it)
            if cell is None:
                waiting = self.uses(it) + waiting
            elif cell not in cells:
                cells.append(cell)
                found.append(it)
        return found


def demanded(run, source, time, inputs):
    """The words of the program, and what its certificate tells."""
    run.source(source)
    for name, text in inputs.items():
        run.write(name, text)
    words = ["p", *[f"{it}={it}" for it in inputs]]
    flat = run.lucid("--flat", "p").must().out.decode()
    return words, Demand(flat, run.lucid("--why", str(time), *words).must().out.decode())


def values_in(grid):
    """How many values a grid holds: each ends below the last digit of its time, and a dot is none."""
    count, ends = 0, None
    for line in grid.splitlines():
        if line.startswith("time "):
            ends = [it.end() for it in re.finditer(r"\d+", line)]
        elif not line or line.startswith(("[", "..")):
            ends = None
        elif ends:
            count += sum(line[:end].rsplit("  ", 1)[1].strip() != "." for end in ends)
    return count


@case
def a_grid_holds_each_value_once(run):
    for name, (source, time, inputs) in SHOWN.items():
        words, demand = demanded(run, source, time, inputs)
        text = run.showing().lucid("--as", "grid", "--at", str(time), *words).must().out.decode()
        # (the heading has the whole equation, and a title the call)
        check(all(len(it) <= 100 for it in text.splitlines()[1:] if not it.startswith("[")), f"{name}: {text}")
        check(text.startswith(f"output at {time} is "), f"{name}: {text}")
        if "earlier times left out" not in text:
            check(values_in(text) == len(demand.boxes), f"{name}: {len(demand.boxes)} values in {text}")


@case
def a_grid_is_written(run):
    run.source("f where\n  f = 0 fby g;\n  g = 1 fby f + g;\nend\n")
    run.showing().lucid("p", "--as", "grid").must("""output at 4 is 3   = f at 4

[program]
time      0    1    2    3    4
f         0    1    1    .    3
g         1    1    2    3    .
""")
    run.source("n asa n > 1 where n = 0 fby n + 1; end\n")
    run.showing().lucid("p", "--as", "grid", "--at", "0").must("""output at 0 is 2   = n > 1 is false at 0 to 1, true at 2, so n at 2

[program]
time         0      1      2
n            0      1      2
n > 1    false  false   true
""")


def boxes_in(root):
    """The boxes of values in a picture: by the first word of their class."""
    return [it for it in root.iter(SVG + "rect") if it.get("class", "").split(" ")[0] in BOXES]


def truths_in(root):
    """The tests of a picture: of each its time, as it is told where the box is pointed at, and whether it is drawn as true."""
    for group in root.iter(SVG + "g"):
        box, told = group.find(SVG + "rect"), group.find(SVG + "title")
        kind = box.get("class").split(" ")[0]
        if told is not None and kind in ("true", "false"):
            yield re.match(r".*? at (\d+)(?: space \d+)? is ", told.text)[1], kind == "true"


@case
def a_picture_has_a_box_for_each_value_and_an_arrow_for_each_look(run):
    for name, (source, time, inputs) in SHOWN.items():
        words, demand = demanded(run, source, time, inputs)
        picture = run.showing().lucid("--as", "svg", "--at", str(time), *words).must().out.decode()
        root = tree.fromstring(picture)
        boxes = boxes_in(root)
        arrows = [it for it in root.iter(SVG + "path") if it.get("class") == "arrow"]
        check(len(boxes) == len(demand.boxes), f"{name}: {len(boxes)} boxes of {len(demand.boxes)} values")
        check(len(arrows) == len(demand.arrows), f"{name}: {len(arrows)} arrows of {len(demand.arrows)} looks")
        marked = [it for it in boxes if "output" in it.get("class").split(" ")]
        check(len(marked) == len(demand.looks(len(demand.rows) - 1)), f"{name}: {len(marked)} boxes of the output")
        truths = sorted(truths_in(root))
        check(truths == sorted(demand.truths.values()), f"{name}: the tests are {truths}")
        check(root.find(SVG + "title") is not None and root.find(SVG + "desc") is not None, f"{name}: no title")
        check(not re.search("<script|href|@import|url\\((?!#)", picture), f"{name}: it doesn't stand alone")


@case
def each_picture_is_drawn_by_another_program(run):
    drawing = shutil.which("rsvg-convert") or shutil.which("inkscape")
    if drawing is None:
        return
    at, to = run.path("picture.svg"), run.path("picture.png")
    for name, (source, time, inputs) in SHOWN.items():
        words, _ = demanded(run, source, time, inputs)
        run.write("picture.svg", run.showing().lucid("--as", "svg", "--at", str(time), *words).must().out.decode())
        subprocess.run([drawing, "-o", to, at], check=True, capture_output=True, timeout=60)
        with open(to, "rb") as it:
            check(it.read(8) == b"\x89PNG\r\n\x1a\n", f"{name}: no picture was drawn")


@case
def values_that_are_left_out_are_counted(run):
    source, time, inputs = SHOWN["sieve"]
    words, demand = demanded(run, source, time, inputs)
    left = len(demand.boxes) - 5
    for form in ("grid", "svg"):
        text = run.showing().lucid("--as", form, "--cells", "5", "--at", str(time), *words).must().out.decode()
        check(f".. (values left out: {left})" in text, f"{form}: {shown(text)}")
