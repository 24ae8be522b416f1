"""Every third number."""
from itertools import count

from lines import write

write(n for n in count() if n % 3 == 0)
