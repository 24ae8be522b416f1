from math import comb

# rule 90: each place is the sum of its neighbours, modulo 2
for time in range(16):
    places = [15 - time + 2 * k for k in range(time + 1) if comb(time, k) % 2]
    print("`" + "".join("#" if place in places else "." for place in range(31)) + "'")
