"""The programs that the pages show, run as they stand there.

A fence is what its first line says, in a form that pandoc reads too:

  ```lucid                       a program
  ```{.lucid words="WORDS"}      a program that is run with these words behind its file
  ```{.made words="WORDS"}       the same of a program that is too large for a page: a line of the shell, which writes it
  ```before                      lines of the shell that stand before the calls of the program above, as `exec > /dev/full`
  ```{.input file=NAME}          a file of that name for the programs up to the next heading; `-` is the standard input
  ```output                      what the program above it writes; each program has one
  ```{.output status=N}          the same of a program that ends with status N, which isn't 0
  ```report                      what it writes on the standard error
  ```explained                   what `lucid_explain` writes there with the same words
  ```{.shown words="WORDS"}      what `lucid_show` writes of the program above it with these words
  ```{.antt file=FILE}           the file of definitions, whole but for its first comment and the lines that import names

A picture, as `![a search](pictures/search.svg)`, is what `lucid_show` draws of the program above it with the words of the call above it;
tools/pictures draws it again. The first lines `lucid WORDS`, `output N`, `input NAME` and `antt FILE` are read as well, though not by pandoc. All other fences are
text. Where the line above a program has a call in code, as `lucid --count=3 program.lucid`, the call's words are the program's.
Where it has a link to a file of examples/, the program is that file's, but for the comment that the file begins with.

Tables whose columns have these names are run too, a row a program: `source`, `words`, `output` and `status`; `example` and `its
values`, of the streams `n` and `p`; `example` and `value`; `program` and `line`, of `--cycles`; `as in` and `the hint`, of programs and
definitions that are refused, where the first cell is code alone.
"""
import json
import os
import re
import shlex
import shutil
import subprocess
from itertools import zip_longest

from harness import Case, Failed, Skipped, check, lines, shown

CODE = r"(`+) ?(.*?) ?\1(?!`)"
STREAMS = " where n = 0 fby n + 1; p = true fby false fby p; end"


class Fence:
    """A fenced text: its first line's words, its text, the line it begins on, the headings before it and the line above it."""

    def __init__(self, kind, words, at, section, above):
        self.kind, self.words, self.at, self.section, self.above, self.text = kind, words, at, section, above, ""


def first_line(text):
    """The kind of a fence and its words, of its first line without the grave accents."""
    in_braces = re.fullmatch(r'\{\.(\w+) \w+=("?)([^"]*?)\2\}', text)
    if in_braces:
        return in_braces[1], in_braces[3]
    check("{" not in text, f"a fence's first line isn't understood: {text}")
    kind, _, words = text.partition(" ")
    return kind, words.strip()


def fences(page):
    """The fences of a page, in order."""
    found, inside, section, above = [], None, 0, ""
    for number, line in enumerate(page.splitlines(), 1):
        if inside:
            if line.strip() == "```":
                inside, above = None, ""
            else:
                inside.text += line + "\n"
        elif line.startswith("```"):
            inside = Fence(*first_line(line[3:].strip()), number, section, above)
            found.append(inside)
        else:
            section, above = section + line.startswith("#"), line.strip() or above
    check(inside is None, "a fence isn't closed")
    return found


class Shown:
    """A program of a page, with what is said of it."""

    def __init__(self, fence, inputs):
        self.is_made, self.limits = fence.kind == "made", ""
        self.source, self.words, self.at, self.above = fence.text, shlex.split(fence.words), fence.at, fence.above
        self.inputs, self.out, self.status, self.report, self.explained = dict(inputs), None, 0, None, None
        self.shown = []


def programs(page):
    """The programs of a page."""
    found, inputs, section = [], {}, 0
    for it in fences(page):
        if it.section != section:
            inputs, section = {}, it.section
        if it.kind in ("lucid", "made"):
            found.append(Shown(it, inputs))
        elif it.kind == "input":
            inputs[it.words] = it.text
        elif it.kind in ("shown", "before"):
            check(found, f"line {it.at}: no program stands before it")
            if it.kind == "shown":
                found[-1].shown.append(it)
            else:
                found[-1].limits = it.text
        elif it.kind in ("output", "report", "explained"):
            check(found, f"line {it.at}: no program stands before it")
            kind = "out" if it.kind == "output" else it.kind
            check(getattr(found[-1], kind) is None, f"line {it.at}: the program before it has one")
            setattr(found[-1], kind, it.text)
            if it.kind == "output":
                found[-1].status = int(it.words or 0)
    return found


def call_above(line, command=r"lucid(_explain)?"):
    """The words of the last call in a line, without the command, the program's file and where the output goes, or none."""
    calls = [shlex.split(it.split(" > ")[0]) for it in spans(line) if re.match(f"{command} ", it) and "|" not in it]
    return [it for it in calls[-1][1:] if it != "program.lucid"] if calls else None


class Picture:
    """A picture of a page: its file below docs/, the program that is drawn, the words of the call, and its line."""

    def __init__(self, file, program, words, at):
        self.file, self.program, self.words, self.at = file, program, words, at

    def drawn(self, run):
        """What the command draws."""
        for name, text in self.program.inputs.items():
            run.write(name, text)
        run.source(self.program.source, "program.lucid")
        return run.showing().lucid("program.lucid", *self.words, given=self.program.inputs.get("-", "")).must().out


def pictures(page):
    """The pictures of a page, in order."""
    found, above, inside = [], "", False
    for number, line in enumerate(page.splitlines(), 1):
        inside ^= line.startswith("```")
        file = re.fullmatch(r"!\[.+\]\((pictures/\w+\.svg)\)", line)
        if file and not inside:
            before, words = [it for it in programs(page) if it.at < number], call_above(above, "lucid_show")
            check(before and words, f"line {number}: no program and no call of lucid_show stand above the picture")
            found.append(Picture(file[1], before[-1], words, number))
        above = line.strip() or above
    return found


def is_drawn(name, picture):
    """The case that a picture is what the command draws."""
    def work(run):
        drawn = picture.drawn(run)
        with open(os.path.join(run.top, "docs", picture.file), "rb") as it:
            check(it.read() == drawn, f"line {picture.at}: the command draws another picture: tools/pictures writes it")
    return Case(f"{name} line {picture.at}, a picture", work)


def is_example(run, it):
    """Compares a program with the example that the line above it names."""
    for link in re.findall(r"\(\.\./(examples/\w+\.lucid)\)", it.above):
        with open(os.path.join(run.top, link), encoding="utf-8") as example:
            text = re.sub(r"\A(//.*\n)+", "", example.read())
        check(it.source == text, f"line {it.at}: {link} says {shown(first_other(text, it.source))}")


def one(name, shown_program):
    def work(run):
        it = shown_program
        is_example(run, it)
        call = call_above(it.above)
        check(call is None or sorted(call) == sorted(it.words), f"line {it.at}: the call above it has the words {shown(call)}")
        check(it.out is not None, f"line {it.at}: no fence says what it writes")
        for file, text in it.inputs.items():
            if file != "-":
                run.write(file, text)
        run.source(run.shell(it.source).must().out if it.is_made else it.source, "program.lucid")
        how = {"given": it.inputs.get("-", ""), "limits": it.limits}
        run.lucid("program.lucid", *it.words, **how).must(it.out, it.status, it.report)
        if it.explained is not None:
            run.explaining().lucid("program.lucid", *it.words, **how).must(it.out, it.status, it.explained)
        for fence in it.shown:
            words, call = shlex.split(fence.words), call_above(fence.above, "lucid_show")
            check(call is None or sorted(call) == sorted(words), f"line {fence.at}: the call above it has the words {shown(call)}")
            run.showing().lucid("program.lucid", *words, given=it.inputs.get("-", "")).must(fence.text)
    return Case(f"{name} line {shown_program.at}", work)


def quoted(name, fence):
    """The case that a fence quotes its file."""
    def work(run):
        with open(os.path.join(run.top, fence.words), encoding="utf-8") as it:
            text = re.split(r"^use .*\n\n", it.read(), flags=re.MULTILINE)[-1]
        check(fence.text == text, f"line {fence.at}: the file says {shown(first_other(text, fence.text))}")
    return Case(f"{name} line {fence.at} of definitions", work)


def by_pandoc(name, page):
    """The case that pandoc finds the page's fences, each with its kind and its text."""
    def blocks(part):
        if isinstance(part, dict) and part.get("t") == "CodeBlock":
            return [(kind, part["c"][1].rstrip("\n")) for kind in part["c"][0][1]]
        parts = part.values() if isinstance(part, dict) else part if isinstance(part, list) else ()
        return [it for more in parts for it in blocks(more)]

    def work(run):
        if shutil.which("pandoc") is None:
            raise Skipped("pandoc")
        call = ["pandoc", "--preserve-tabs", "-f", "markdown", "-t", "json"]
        read = subprocess.run(call, input=page, capture_output=True, timeout=60, check=True, encoding="utf-8")
        wanted = [(it.kind, it.text.rstrip("\n")) for it in fences(page) if it.kind]
        other = next((a for a, b in zip_longest(wanted, blocks(json.loads(read.stdout))) if a != b), None)
        check(other is None, f"pandoc doesn't find this fence: {shown(other)}")
    return Case(f"{name} by pandoc", work)


def first_other(text, other):
    """The first line of a text that another one hasn't in its place."""
    return next((a for a, b in zip_longest(text.splitlines(), other.splitlines()) if a != b), "")


def spans(cell):
    """The texts in code in a cell."""
    return [text for _, text in re.findall(CODE, cell)]


def is_code(cell):
    """Whether a cell is code alone, with `, ` between its texts."""
    return not re.sub(CODE, "", cell).strip(", ")


def plain(cell):
    """A cell's text, without the marks of code."""
    return re.sub(CODE, r"\2", cell).strip()


def values_of(cell):
    """The values of a list that is parted by `, `, where a value may itself stand in code."""
    kept, text = [], cell
    for _, code in re.findall(CODE, cell):
        text = re.sub(CODE, f"\0{len(kept)}\0", text, count=1)
        kept.append(code)
    return [re.sub("\0(\\d+)\0", lambda at: kept[int(at[1])], it.strip()) for it in text.split(",")]


def tables(page):
    """The rows of each table with the number of their lines: the first row of a table names its columns."""
    found, rows = [], []
    for number, line in enumerate([*page.splitlines(), ""], 1):
        if line.startswith("|"):
            cells = re.split(r"\s*(?<!\\)\|\s*", line.strip().strip("|").strip())
            rows.append((number, [it.replace("\\|", "|") for it in cells]))
        elif rows:
            found.append([rows[0], *rows[2:]])
            rows = []
    return found


def first_values(run, source, wanted):
    run.source(source)
    run.lucid("p", f"--count={len(wanted)}").must(lines(*wanted))


def values_at_spaces(run, example, cell):
    """Values such as `0, 1, 2 at space 0, and 7, 7, 7 at space 1`, or values at space 0 alone."""
    cell = cell.removesuffix(" at each time")
    parts = re.findall(r"(.*?) at space (\d+)(?:, and )?", cell) or [(cell, None)]
    for values, space in parts:
        source = f"({example}) atspace {space}{STREAMS}" if space else example + STREAMS
        first_values(run, source, values_of(values))


def row_of_forms(run, row):
    values_at_spaces(run, spans(row["example"])[0], row["its values"])


def row_of_operators(run, row):
    first_values(run, spans(row["example"])[0], [plain(row["value"])])


def said(cell):
    """What a cell says is written and reported: `none` and `nothing` are no line."""
    report = re.search(r"the report (.*)", cell)
    report = spans(report[1])[0] + "\n" if report else None
    text = re.sub(r",? *and the report .*", "", cell)
    return "" if text in ("none", "nothing") else lines(*values_of(text)), report


def row_of_cycles(run, row):
    run.source(spans(row["program"])[0])
    out, report = said(row["line"])
    run.lucid("p", "--cycles").must(out, 1 if report else 0, report)


def row_of_runs(run, row):
    source, *more = spans(row["source"])
    run.source(source)
    given = re.search(r"the lines? (.*?) in the file", row["source"])
    if given:
        run.write(more[-1], lines(*values_of(given[1])))
    words = shlex.split(spans(row["words"])[0])
    out, report = said(row["output"])
    run.lucid(*words).must(out, int(plain(row["status"])), report)


def row_of_hints(run, row):
    """Slips, which are programs, or definitions where they end with `;`: the hint of each, or that of all."""
    slips, hints = spans(row["as in"]), re.split(r"(?<=\.)`, `", row["the hint"].removeprefix("`").removesuffix("`"))
    for slip, hint in zip(slips, hints * (len(slips) // len(hints)), strict=True):
        run.source(f"n where {slip} end" if slip.endswith(";") else slip)
        ended = run.explaining().lucid("p").must("", 1)
        check(ended.report.endswith(f"\n{hint}\n".encode()), f"{slip}: {shown(ended.report)}")


KINDS = [
    ({"source", "words", "output", "status"}, row_of_runs),
    ({"example", "its values"}, row_of_forms),
    ({"example", "value"}, row_of_operators),
    ({"program", "line"}, row_of_cycles),
    ({"as in", "the hint"}, row_of_hints),
]


def rows(name, page):
    """A case for each row of each table that shows programs."""
    found = []
    for (_, names), *body in tables(page):
        works = [work for columns, work in KINDS if columns <= set(names)]
        for number, cells in body if works else ():
            if works[0] is row_of_hints and not is_code(cells[0]):
                continue  # told in words
            row = dict(zip(names, cells))
            found.append(Case(f"{name} line {number} of a table", lambda run, row=row, work=works[0]: work(run, row)))
    return found


def in_page(top, name):
    with open(os.path.join(top, name), encoding="utf-8") as it:
        page = it.read()
    try:
        quotes = [quoted(name, it) for it in fences(page) if it.kind == "antt"]
        drawn = [is_drawn(name, it) for it in pictures(page)]
        return [one(name, it) for it in programs(page)] + quotes + drawn + rows(name, page) + [by_pandoc(name, page)]
    except Failed as trouble:
        def work(_, trouble=trouble):
            raise trouble
        return [Case(f"{name}: its fences", work)]


def cases(top):
    """The programs of every page."""
    names = ["README.md"] + sorted(f"docs/{it}" for it in os.listdir(os.path.join(top, "docs")) if it.endswith(".md"))
    names += ["examples/README.md"] * os.path.isfile(os.path.join(top, "examples", "README.md"))
    found = {name: in_page(top, name) for name in names}

    def whole(_):
        lost = [it for it in ("README.md", "docs/LANGUAGE.md", "docs/FILTERS.md") if len(found[it]) < 2]  # one is by pandoc
        check(not lost, f"no program is found in {shown(lost)}")
    return [it for its in found.values() for it in its] + [Case("pages: programs are found", whole)]
