from collections import Counter
from pathlib import Path

counts = Counter(Path(__file__).parents[1].joinpath("inputs/words.txt").read_text().split())
print("[%", *[f"[% {word} {count} %]" for word, count in sorted(counts.items())], "%]")
