from math import trunc
from fractions import Fraction
from pathlib import Path

readings = [int(line) for line in Path(__file__).parents[1].joinpath("inputs/readings.txt").read_text().split()]
smooth = 1000 * readings[0]
for reading in readings:
    smooth += trunc(Fraction(1000 * reading - smooth, 4))
    print(trunc(Fraction(smooth, 1000)))
