from math import gcd
from pathlib import Path

inputs = Path(__file__).parents[1] / "inputs"
left = (inputs / "left_numbers.txt").read_text().split()
right = (inputs / "right_numbers.txt").read_text().split()
for a, b in zip(left, right):
    print(gcd(int(a), int(b)))
