from itertools import accumulate
from pathlib import Path

seconds = [int(line) for line in Path(__file__).parents[1].joinpath("inputs/seconds.txt").read_text().split()]
begins = [1] + [later - earlier > 30 for earlier, later in zip(seconds, seconds[1:])]
for session, second in zip(accumulate(begins), seconds):
    print("[%", session, second, "%]")
