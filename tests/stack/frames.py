#!/usr/bin/env python3
"""The stack of each entry by the archive's code: the frames along the chain of calls that takes most, with a return
address each and the 128 bytes below the stack pointer that the last function may use (the red zone of the x86-64 calling
convention).

  tests/stack/frames.py    prints a line for each entry: its name, the bytes, and the chain
"""
import sys
from pathlib import Path

sys.path.insert(0, str(Path(__file__).resolve().parent.parent / "archive"))
import archive  # noqa: E402

RED_ZONE, RETURN = 128, 8
functions = archive.functions()
for name in sorted(n for n in functions if n.startswith("wospinzo_")):
    size, chain = archive.stack(functions, name)
    # A function that was made for a type stands by its own name.
    print(f"{name} {size + RETURN + RED_ZONE} {' '.join(function.partition('::<')[0] for function in chain)}")
