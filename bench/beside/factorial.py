"""For each number the factorial modulo 1000003, by recursion."""
from itertools import count

from lines import write


def fact(n):
    return 1 if n == 0 else n * fact(n - 1) % 1000003


write(fact(n) for n in count())
