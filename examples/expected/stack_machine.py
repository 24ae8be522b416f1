from operator import add, mul, sub
from pathlib import Path

work = {"add": add, "sub": sub, "mul": mul}
stack = []
for word in Path(__file__).parents[1].joinpath("inputs/instructions.txt").read_text().split():
    if stack is None or (word in work and len(stack) < 2):
        stack = None
    elif word in work:
        top, second, *rest = stack
        stack = [work[word](second, top), *rest]
    else:
        stack = [stack[0] if word == "copy" else int(word), *stack]
    print("error" if stack is None else " ".join(map(str, ["[%", *stack, "%]"])))
