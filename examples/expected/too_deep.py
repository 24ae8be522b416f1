pass  # there is no line: the first value already needs more references than the limit allows
