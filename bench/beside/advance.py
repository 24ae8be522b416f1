"""A stream that goes on where a test is true, which it always is here."""
from itertools import count, repeat

from lines import write


def upon(values, tests):
    value = next(values)
    yield value
    for test in tests:
        if test:
            value = next(values)
        yield value


write(upon(count(), repeat(True)))
