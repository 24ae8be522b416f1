from pathlib import Path

for line in Path(__file__).parents[1].joinpath("inputs/records.txt").read_text().splitlines():
    field = line.strip("`'").split(",")[1]
    print(int(field or "0") if field.isdigit() or not field else "error")
