from math import comb

for row in range(10):
    print("[%", *[comb(row, column) for column in range(row + 1)], "%]")
