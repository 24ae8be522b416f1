from pathlib import Path

signal = Path(__file__).parents[1].joinpath("inputs/signal.txt").read_text().split()
for time, (before, now) in enumerate(zip(["0"] + signal, signal)):
    if before == "0" and now == "1":
        print(time)
