#!/usr/bin/env python3
"""The TextMate grammar is one: each pattern compiles, each inclusion is there, and a line has the scopes that it should; and the
problem matcher of Visual Studio Code finds the places that lucid_explain tells, and its tasks use it.
Run from the top of the repository; silent with status 0 where all is right."""
import json
import re
import sys

FOLDER = "editors/textmate/"
RESERVED = """where end is current if then else fi first next fby whenever wvr asa upon attime and or not true false eod error div mod eq
ne hd tl length substr nth mkword mkstring isint isword isstring islist istruth isnull isatom iseod iserror abs cmp initial succ sby atspace"""

EXPLAINED = """syntax at 16
my program.lucid:2:9:
  x = 1 end
        ^
Here stands `end`.
wrong number of arguments at 0: 1 wanted, 2 given
p:1:1:
f(1, 2) where
^
A call has as many arguments as the function has parameters.
judgment 2 does not follow
p:1:3:
3 + 4
  ^
too deep at time 0
`--cycles` says: cycle x at 8: sum 0
"""


def first_match(grammar, patterns, line, at):
    """The pattern that matches next in a line: the leftmost, and of these the first one."""
    best = None
    for it in flat(grammar, patterns):
        found = re.compile(it.get("match") or it["begin"]).search(line, at)
        if found and (best is None or found.start() < best[0].start()):
            best = found, it
    return best


def flat(grammar, patterns):
    for it in patterns:
        if "include" in it:
            it = grammar["repository"][it["include"].removeprefix("#")]
        if "match" in it or "begin" in it:
            yield it
        else:
            yield from flat(grammar, it["patterns"])


def scopes(grammar, line):
    """The texts of a line that match, with their scopes."""
    found, at, inside = [], 0, []
    while at < len(line):
        patterns = inside[-1]["patterns"] if inside else grammar["patterns"]
        best = first_match(grammar, patterns, line, at)
        end = re.compile(inside[-1]["end"]).search(line, at) if inside else None
        if end and (best is None or end.start() <= best[0].start()):
            inside.pop()
            at = end.end()
        elif best:
            if "begin" in best[1]:
                inside.append(best[1])
            else:
                found.append((best[0][0], best[1]["name"].removesuffix(".lucid")))
            at = best[0].end()
        else:
            break
    return found


def places(matcher, text):
    """What a problem matcher finds in a text: message, file, line and column. Its patterns match lines one after another."""
    found, lines = [], text.splitlines()
    for above, line in zip(lines, lines[1:]):
        report, place = (re.search(it["regexp"], text) for it, text in zip(matcher["pattern"], (above, line)))
        if report and place:
            first, second = matcher["pattern"]
            found.append((report[first["message"]], place[second["file"]], place[second["line"]], place[second["column"]]))
    return found


def matchers():
    with open(FOLDER + "package.json", encoding="utf-8") as it:
        matcher, = json.load(it)["contributes"]["problemMatchers"]
    with open(FOLDER + "tasks.json", encoding="utf-8") as it:
        assert {task["problemMatcher"] for task in json.load(it)["tasks"]} == {"$" + matcher["name"]}
    got = places(matcher, EXPLAINED)
    assert got == [("syntax at 16", "my program.lucid", "2", "9"), ("wrong number of arguments at 0: 1 wanted, 2 given", "p", "1", "1"),
                   ("judgment 2 does not follow", "p", "1", "3")], got


def main():
    matchers()
    with open(FOLDER + "lucid.tmLanguage.json", encoding="utf-8") as it:
        grammar = json.load(it)
    with open(FOLDER + "package.json", encoding="utf-8") as it:
        named = json.load(it)["contributes"]["grammars"][0]
    assert named["scopeName"] == grammar["scopeName"], named
    assert FOLDER + named["path"].removeprefix("./") == FOLDER + "lucid.tmLanguage.json", named
    got = scopes(grammar, "f(x1) where x1 = 10 fby `a // b' ** \"dog\"; end // end")
    assert got == [
        ("f", "entity.name.function"), ("(", "punctuation"), ("x1", "variable.other"), (")", "punctuation"),
        ("where", "keyword.other.block"), ("x1", "variable.other"), ("=", "keyword.operator"), ("10", "constant.numeric"),
        ("fby", "keyword.operator.word.time"), ("`a // b'", "string.quoted.other"), ("**", "keyword.operator"),
        ('"dog"', "constant.other.symbol"), (";", "punctuation"), ("end", "keyword.other.block"), ("// end", "comment.line.double-slash"),
    ], got
    got = scopes(grammar, "[% where [% -1 %] true %] eod")
    assert got == [
        ("where", "constant.other.symbol"), ("-1", "constant.numeric"), ("true", "constant.language"), ("eod", "constant.language"),
    ], got
    for word in RESERVED.split():
        assert scopes(grammar, word)[0][1] != "variable.other", word
        assert scopes(grammar, word + "x")[0] == (word + "x", "variable.other"), word


if __name__ == "__main__":
    try:
        main()
    except (AssertionError, KeyError, ValueError, re.error) as wrong:
        print(f"textmate: {wrong!r}")
        sys.exit(1)
