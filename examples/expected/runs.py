from itertools import groupby
from pathlib import Path

readings = Path(__file__).parents[1].joinpath("inputs/readings.txt").read_text().split()
for reading, run in groupby(readings):
    print("[%", reading, len(list(run)), "%]")
