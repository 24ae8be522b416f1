for exponent in range(122, 129):
    print(2 ** exponent if exponent < 127 else "error")
