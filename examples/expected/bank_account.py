from pathlib import Path

balance = 0
for line in Path(__file__).parents[1].joinpath("inputs/entries.txt").read_text().splitlines():
    kind, amount = line.split()[1:3]
    change = int(amount) if kind == "deposit" else -int(amount)
    outcome = "refused" if balance + change < 0 else "done"
    balance += change if outcome == "done" else 0
    print("[%", kind, amount, outcome, balance, "%]")
