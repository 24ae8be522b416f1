from pathlib import Path

source = Path(__file__).parents[1].joinpath("no_delay.lucid").read_bytes()
print(f"cycle x at {source.index(b'x = y')}, y at {source.index(b'y = x')}: sum 0")
