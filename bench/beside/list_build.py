"""The lengths of a list that grows at its front."""
from collections import deque
from itertools import count

from lines import write


def list_build():
    x = deque()
    for i in count():
        yield len(x)
        x.appendleft(i)


write(list_build())
