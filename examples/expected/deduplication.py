from pathlib import Path

for word in dict.fromkeys(Path(__file__).parents[1].joinpath("inputs/words.txt").read_text().split()):
    print(word)
