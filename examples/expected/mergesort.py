from pathlib import Path

for line in Path(__file__).parents[1].joinpath("inputs/lists.txt").read_text().splitlines():
    items = line.split()[1:-1]
    print("[%", *sorted(items, key=lambda item: int(item) if item.lstrip("-").isdigit() else item), "%]")
