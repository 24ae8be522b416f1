from pathlib import Path

readings = [int(line) for line in Path(__file__).parents[1].joinpath("inputs/readings.txt").read_text().split()]
for end in range(1, len(readings) + 1):
    print(max(readings[max(0, end - 4):end]))
