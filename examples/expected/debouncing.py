from pathlib import Path

signal = [int(line) for line in Path(__file__).parents[1].joinpath("inputs/signal.txt").read_text().split()]
held = signal[0]
for at, bit in enumerate(signal):
    if {signal[max(0, at - back)] for back in range(3)} == {bit}:
        held = bit
    print(held)
