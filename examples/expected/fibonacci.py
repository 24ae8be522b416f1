low, high = 0, 1
for time in range(20):
    print(low)
    low, high = high, low + high
