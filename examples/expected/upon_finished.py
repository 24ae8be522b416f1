from pathlib import Path

inputs = Path(__file__).parents[1] / "inputs"
tasks = (inputs / "tasks.txt").read_text().split()
finished = (inputs / "finished.txt").read_text().split()
for hour in range(len(finished) + 1):
    print(tasks[finished[:hour].count("true")])
