from pathlib import Path

for line in Path(__file__).parents[1].joinpath("inputs/strings.txt").read_text().splitlines():
    if line[1:-1] == line[1:-1][::-1]:
        print(line)
