for n in range(20):
    print(n * n)
