#!/usr/bin/env python3
"""Prints a flat text of so many functions in a chain: each calls the next one, and the last holds CHECKPOINT.

usage: chain.py COUNT up|down. `up` numbers them in the order of the calls, `down` against it. The first is `main`."""
import sys

HEAD = '/* porch flat text, version 1 */\n#include "porch.h"\n'

count = int(sys.argv[1])
up = sys.argv[2] == "up"
print(HEAD, end="")
for number in range(count):
    place = number if up else count - 1 - number
    name = "main" if place == 0 else f"f{number}"
    called = number + 1 if up else number - 1
    does = "CHECKPOINT();" if place == count - 1 else f"CALL(v0, {called});"
    print(f"FUNCTION({number}, {name}, 4, 0);\nVAR(0, 4);\nBEGIN();\n{does}\nRETURN(v0);\nEND();")
