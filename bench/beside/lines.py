"""Writes a stream's first values, a line each: `PROGRAM.py COUNT [blocks]`.

Each line is written at once; with the word `blocks` lines are gathered, as Python does where its output is no terminal.
"""
import sys
from itertools import islice


def write(values):
    at_once = "blocks" not in sys.argv[2:]
    for value in islice(values, int(sys.argv[1])):
        print(value, flush=at_once)
