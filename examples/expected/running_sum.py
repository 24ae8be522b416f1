from itertools import accumulate
from pathlib import Path

lines = Path(__file__).parents[1].joinpath("inputs/amounts.txt").read_text().split()
for total in accumulate(map(int, lines)):
    print(total)
