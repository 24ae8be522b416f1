from pathlib import Path
from statistics import median

readings = [int(line) for line in Path(__file__).parents[1].joinpath("inputs/readings.txt").read_text().split()]
for three in zip(readings[:1] + readings, readings, readings[1:] + readings[-1:]):
    print(median(three))
