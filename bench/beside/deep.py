"""The number at time 500000, at each time."""
from itertools import count, islice, repeat

from lines import write

write(repeat(next(islice(count(), 500000, None))))
