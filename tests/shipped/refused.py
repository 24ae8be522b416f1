"""Words that are refused as usage. In a line the words stand with one blank between two; a word `_` stands for the empty one."""
from harness import case, check, shown

LINES = {
    "numbers out of range": [
        "--count 0 p",
        "--count 1000001 p",
        "--depth 0 p",
        "--depth 1000001 p",
        "--age 0 p",
        "--age 1000001 p",
        "--room 0 p",
        "--room 1000001 p",
        "--make 0",
        "--make 10001",
        "--why 9223372036854775808 p",
        "--count=-1 p",
        "--count 4294967297 p",
        "--make 18446744073709551617",
    ],
    "values of no form": [
        "--count x p",
        "--count",
        "--count= p",
        "--count -1 p",
        "--count ++1 p",
        "--why -1 p",
        "--why=-0 p",
        "--why 1.0 p",
        "--policy all p",
        "--policy Keep p",
        "--policy _ p",
        "--policy p",
        "p --count -x",
        "p --check --stats",
    ],
    "other options": [
        "--stats=x p",
        "--print=true p",
        "--stat p",
        "--form-flat p",
        "--help",
        "--help p",
        "--version p",
        "-h",
        "-V",
        "-x p",
        "-c 5 p",
    ],
    "repeated options": [
        "--count 1 --count 1 p",
        "--depth 1 --depth=2 p",
        "--policy keep --policy keep p",
        "--age 1 p --age 1",
        "--room 1 --room 1 p",
        "--stats --stats p",
        "--print --print p",
        "--make 1 --make 1",
        "--columns a --columns b p",
        "--cycles --cycles p",
        "--why 1 --why 1 p",
        "--check f --check f p",
        "--flat --flat p",
        "--from-flat --from-flat p",
    ],
    "options that exclude each other": [
        "--print --columns a p",
        "--print --cycles p",
        "--columns a --why 1 p",
        "--cycles --check f p",
        "--why 1 --check f p",
        "--flat --from-flat p",
        "--flat --cycles p",
        "--from-flat --print p",
        "--why 0 --from-flat p",
        "--print --cycles --flat p",
        "--make 5 --from-flat",
        "--make 5 --flat --print",
    ],
    "sources": [
        "--count 5",
        "--from-flat",
        "--make 5 p",
        "--make 5 a=f",
        "--make 5 -- p",
        "-",
        "_",
        "--stats -",
        "--",
        "-- -",
    ],
    "inputs": [
        "p -",
        "p _",
        "p a",
        "p =f",
        "p a=",
        "p a=-",
        "p 1=f",
        "p a-b=f",
        "p _a=f",
        "p if=f",
        "p atspace=f",
        "p a=f b",
        "p -- -x=f",
        "p -- --stats",
    ],
    "lists and files": [
        "--columns a, p",
        "--columns ,a p",
        "--columns a,,b p",
        "--columns _ p",
        "--columns a,if p",
        "--columns a,1 p",
        "--columns a;b p",
        "--columns a,b,c,d,e,f,g,h,i,j,k,l,m,n,o,p,q p",
        "--check - p",
        "--check _ p",
        "--check= p",
    ],
}


def must_be_usage(run, why, words):
    ended = run.lucid(*words).must("", 2)
    check(ended.report.startswith(b"usage: lucid ") and ended.report.count(b"\n") == 1, f"{why}: {words}: {shown(ended.report)}")


@case
def lines_are_refused(run):
    run.source("1")
    must_be_usage(run, "no words", [])
    for why, lines in LINES.items():
        for line in lines:
            must_be_usage(run, why, ["" if it == "_" else it for it in line.split(" ")])
