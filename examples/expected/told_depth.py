# Each name's number is at least 1 and its reference's number less the names times the delay, and none is below 0:
# `n` needs 0, `total` one more for `n`, `later` and `ahead` each one more and five steps of `next`, the program two more.
names = 4
total = 0 + 1
later = total + 1 + 5 * names
ahead = later + 1 + 5 * names
print(f"depth {names} * t + {ahead + 2}")
