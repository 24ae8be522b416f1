"""The numbers from 0 on."""
from itertools import count

from lines import write

write(count())
