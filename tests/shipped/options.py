"""Options, defaults, ranges, statuses and reports: what docs/LANGUAGE.md says of them, the manual and the command say too."""
import os
import re

from harness import case, check, shown
from pages import spans, tables

RANGE = re.compile(r"(\d+) to (\d+(?:[,^]\d+)*(?: - 1)?)")


class Option:
    """What a page says of an option: its argument, its range or its words, and its default; each may be none."""

    def __init__(self, argument, values, default):
        self.said = (argument.lower(), values, default)


def page(run, name):
    with open(os.path.join(run.top, name), encoding="utf-8") as it:
        return it.read()


def range_or_words(text, words):
    found = RANGE.search(text)
    return found.groups() if found else tuple(words)


def rows_of_language(run, first):
    """The rows of the table of docs/LANGUAGE.md whose first column has this name, each a list of cells."""
    found = [body for (_, names), *body in tables(page(run, "docs/LANGUAGE.md")) if names[0] == first]
    check(len(found) == 1, f"docs/LANGUAGE.md has {len(found)} tables of a column {first}")
    return [cells for _, cells in found[0]]


def options_of_language(run):
    found = {}
    for cells in rows_of_language(run, "option"):
        for name, _, argument in (it.partition(" ") for it in spans(cells[0])):
            found[name] = Option(argument, range_or_words(cells[1], spans(cells[1])), cells[2].strip("`"))
    return found


def plain_line(line):
    """A line of the manual without the marks of the text: `.Ar N` is `N`."""
    return re.sub(r"^\.\w\w ", "", line).replace("\\-", "-").replace("\\&", "")


def items(lines):
    """The items of the first list: the words of each with the lines behind them, and those of a list inside."""
    found, depth = [], 0
    for line in lines:
        depth += line.startswith(".Bl") - line.startswith(".El")
        if line.startswith(".It ") and depth == 1:
            found.append((line[4:], []))
        elif depth > 0 and found:
            found[-1][1].append(line)
        elif line.startswith(".El"):
            return found
    return found


def part_of_manual(run, begin):
    text = page(run, "man/lucid.1").splitlines()
    check(begin in text, f"man/lucid.1 has no line {begin}")
    return text[text.index(begin) + 1 :]


def options_of_manual(run):
    found = {}
    for words, lines in items(part_of_manual(run, "The options are:")):
        name, _, argument = words.replace("Fl ", "-").partition(" Ar ")
        text = " ".join(map(plain_line, lines))
        inner = [(it.removeprefix("Cm "), " ".join(of)) for it, of in items(lines)]
        default = re.search(r"without this option ([\d,]+)", text)
        defaults = [default[1]] if default else [it for it, of in inner if "This is the default." in of]
        found[name] = Option(argument, range_or_words(text, [it for it, _ in inner]), "".join(defaults))
    return found


def differ(one, other):
    """What two tables have that isn't in both, as a text; empty where they are the same."""
    names = sorted({it for it in {*one, *other} if it not in one or it not in other or one[it].said != other[it].said})
    return "; ".join(f"{it}: {' and '.join(shown(of[it].said) if it in of else 'nothing' for of in (one, other))}" for it in names)


@case
def options_are_those_of_the_manual(run):
    options = options_of_language(run)
    check(len(options) > 10, f"docs/LANGUAGE.md has the options {shown(sorted(options))}")
    check(not differ(options, options_of_manual(run)), differ(options, options_of_manual(run)))


@case
def options_of_the_synopsis_are_those_of_the_command(run):
    options = sorted(options_of_language(run))
    lines = part_of_manual(run, ".Sh SYNOPSIS")
    synopsis = "\n".join(re.findall(r"Fl (.*)", "\n".join(lines[: lines.index(".Sh DESCRIPTION")])))
    wanted = sorted({f"-{it}" for it in re.findall(r"-[a-z][a-z-]*", synopsis)})
    check(wanted == options, f"the manual's synopsis has {shown(wanted)}, and docs/LANGUAGE.md {shown(options)}")
    usage = run.lucid().must("", 2).report.decode()
    wanted = sorted(set(re.findall(r"--[a-z-]+", usage)))
    check(wanted == options, f"the command names {shown(wanted)}, and docs/LANGUAGE.md {shown(options)}")


@case
def statuses_are_those_of_the_manual(run):
    statuses = sorted({cells[0] for cells in rows_of_language(run, "status")})
    manual = [it for it, _ in items(part_of_manual(run, ".Sh EXIT STATUS"))]
    check(statuses == manual, f"docs/LANGUAGE.md has {shown(statuses)}, and the manual {shown(manual)}")


def reports_of_manual(run):
    return {it.rstrip(" .") for it, _ in items(part_of_manual(run, ".Sh DIAGNOSTICS"))}


@case
def reports_are_those_of_the_manual(run):
    cells = " ".join(cells[2] for cells in rows_of_language(run, "status"))
    reports = {it for it in re.findall(r"`([^`]+)`", cells) if re.match(r"\w+[ :]", it)}
    manual = reports_of_manual(run)
    check(reports == manual, f"one alone of docs/LANGUAGE.md and the manual has {shown(sorted(reports ^ manual))}")


@case
def each_report_has_a_heading_among_the_explanations(run):
    headings = [it for it in page(run, "docs/ERRORS.md").splitlines() if it.startswith("## ")]
    told = {it for line in headings for it in spans(line)}
    told |= {"usage:"} if any(it.startswith("## usage") for it in headings) else set()
    lost = reports_of_manual(run) - told
    check(not lost, f"docs/ERRORS.md has no heading of {shown(sorted(lost))}")
