from pathlib import Path

readings = [int(line) for line in Path(__file__).parents[1].joinpath("inputs/readings.txt").read_text().split()]
for count in range(1, len(readings) + 1):
    print("[%", min(readings[:count]), max(readings[:count]), "%]")
