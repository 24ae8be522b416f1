from pathlib import Path

totals = {}
for line in Path(__file__).parents[1].joinpath("inputs/sales.txt").read_text().splitlines():
    region, amount = line.split()[1:3]
    totals[region] = totals.get(region, 0) + int(amount)
for region, amount in totals.items():
    print("[%", region, amount, "%]")
print("[% total", sum(totals.values()), "%]")
