pass  # there is no line: no number of 0, 1, 2, .. is below 0
