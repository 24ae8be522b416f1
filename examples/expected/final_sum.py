from pathlib import Path

lines = Path(__file__).parents[1].joinpath("inputs/amounts.txt").read_text().split()
print(sum(map(int, lines)))
