for time in range(10):
    print(sum(range(time + 11)))
