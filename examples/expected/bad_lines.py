import re
from pathlib import Path

lines = Path(__file__).parents[1].joinpath("inputs/measured.txt").read_text().splitlines()
for number, line in enumerate(lines, 1):
    if not re.fullmatch("-?[0-9]+", line):
        print(number)
