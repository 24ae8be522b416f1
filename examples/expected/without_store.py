low, high = 0, 1
for time in range(16):
    print(low)
    low, high = high, low + high
