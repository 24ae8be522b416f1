from math import comb
from pathlib import Path

signal = [int(line) for line in Path(__file__).parents[1].joinpath("inputs/pulse_and_step.txt").read_text().split()]
for time in range(len(signal)):
    print(sum(comb(4, back) * signal[time - back] for back in range(5) if back <= time))
