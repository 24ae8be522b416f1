"""Each number is the sum of the two before it, modulo 1000000007."""
from lines import write


def fibonacci():
    f, g = 0, 1
    while True:
        yield f
        f, g = g, (f + g) % 1000000007


write(fibonacci())
