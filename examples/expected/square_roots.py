from math import isqrt

for digits in range(19):
    print(isqrt(2 * 100 ** digits))
