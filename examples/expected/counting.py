for time in range(10):
    print(time)
