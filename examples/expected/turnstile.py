from pathlib import Path

after = {"coin": "unlocked", "push": "locked"}
state = "locked"
for event in Path(__file__).parents[1].joinpath("inputs/turnstile.txt").read_text().split():
    print("[%", event, state, after.get(event, state), "%]")
    state = after.get(event, state)
