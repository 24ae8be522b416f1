"""The sums of the standard input's first lines, each an integer."""
import sys
from itertools import accumulate

from lines import write

write(accumulate(map(int, sys.stdin)))
