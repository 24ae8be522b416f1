from pathlib import Path

readings = [int(line) for line in Path(__file__).parents[1].joinpath("inputs/readings.txt").read_text().split()]
for three in zip(readings, readings[1:], readings[2:]):
    print(sum(three))
