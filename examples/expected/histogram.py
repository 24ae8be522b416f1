from collections import Counter
from pathlib import Path

marks = Counter(int(line) // 10 for line in Path(__file__).parents[1].joinpath("inputs/marks.txt").read_text().split())
print("[%", *(marks[ten] for ten in range(10)), "%]")
