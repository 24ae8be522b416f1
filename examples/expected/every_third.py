for time in range(8):
    print(3 * time)
