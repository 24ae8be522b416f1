for n in range(1, 11):
    print(1000 // n)
