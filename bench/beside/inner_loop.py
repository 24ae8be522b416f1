"""For each number the factorial modulo 1000003, by a loop that begins anew."""
from itertools import count

from lines import write


def factorials():
    f = 1
    for i in count():
        yield i, f
        f = f * (i + 1) % 1000003


def inner_loop():
    for n in count():
        yield next(f for i, f in factorials() if i == n)


write(inner_loop())
