cycle = ["red"] * 3 + ["green"] * 2 + ["amber"]
for time in range(20):
    print(cycle[time % 6])
