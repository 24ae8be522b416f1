for n in range(0, 100_000, 50_000):
    print(n)
