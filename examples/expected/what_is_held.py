for n in range(0, 50, 10):
    print(n ** 3)
