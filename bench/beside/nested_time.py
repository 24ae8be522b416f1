"""What an outer time has, remembered by a block in a block: by hand, two local names."""
from itertools import count

from lines import write


def nested_time():
    for k in count():
        n = k
        m = n
        yield m


write(nested_time())
