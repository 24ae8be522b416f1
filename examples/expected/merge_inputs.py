from pathlib import Path

inputs = Path(__file__).parents[1] / "inputs"
lines = (inputs / "ordered_left.txt").read_text().split() + (inputs / "ordered_right.txt").read_text().split()
for number in sorted(map(int, lines)):
    print(number)
