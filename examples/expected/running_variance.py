from fractions import Fraction
from math import floor
from pathlib import Path
from statistics import pvariance

readings = [int(line) for line in Path(__file__).parents[1].joinpath("inputs/readings.txt").read_text().split()]
for number in range(1, len(readings) + 1):
    print(floor(pvariance([Fraction(it) for it in readings[:number]])))
