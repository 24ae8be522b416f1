from itertools import groupby
from pathlib import Path

for line in Path(__file__).parents[1].joinpath("inputs/lists.txt").read_text().splitlines():
    runs = [f"[% {item} {len(list(run))} %]" for item, run in groupby(line.split()[1:-1])]
    print("[%", *runs, "%]")
