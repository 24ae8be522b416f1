from math import trunc
from fractions import Fraction
from pathlib import Path

readings = [int(line) for line in Path(__file__).parents[1].joinpath("inputs/readings.txt").read_text().split()]
for at in range(len(readings)):
    last = [readings[max(0, at - back)] for back in range(4)]
    print(trunc(Fraction(sum(last), 4)))
