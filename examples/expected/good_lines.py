import re
from pathlib import Path

total = 0
for line in Path(__file__).parents[1].joinpath("inputs/measured.txt").read_text().splitlines():
    if re.fullmatch("-?[0-9]+", line):
        total += int(line)
        print(total)
