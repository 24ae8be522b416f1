from pathlib import Path

signal = Path(__file__).parents[1].joinpath("inputs/signal.txt").read_text().replace("\n", "")
for place in range(3, len(signal) + 1):
    if signal[place - 3:place] == "101":
        print(place)
