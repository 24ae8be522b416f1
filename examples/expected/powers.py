for exponent in range(20):
    print(3 ** exponent)
