from math import comb

for time in range(8):
    print("[%", *[comb(time + place, time) for place in range(8)], "%]")
