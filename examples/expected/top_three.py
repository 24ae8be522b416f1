from heapq import nlargest
from pathlib import Path

readings = [int(line) for line in Path(__file__).parents[1].joinpath("inputs/readings.txt").read_text().split()]
print("[%", *nlargest(3, readings), "%]")
