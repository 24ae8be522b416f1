from pathlib import Path

inputs = Path(__file__).parents[1] / "inputs"
total = 0
for price, pieces in zip((inputs / "prices.txt").read_text().split(), (inputs / "pieces.txt").read_text().split()):
    cost = int(price) * int(pieces)
    total += cost
    print("[%", cost, total, "%]")
