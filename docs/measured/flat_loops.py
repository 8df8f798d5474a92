#!/usr/bin/env python3
"""Prints a flat text with a loop of so many turns. usage: flat_loops.py N sums|calls|blocks, or flat_loops.py N walk|row K

`sums` is loop.c as it is lowered: three additions and an assignment a turn. `calls` calls a function of two variables in each
turn, `blocks` allocates an object of three ints and frees it. `walk` makes a list of K blocks first, a turn for each, and then
goes to the next block in each turn. `row` allocates K ints in a row and writes the next one in each turn, the first behind the
last."""
import sys

turns, kind = int(sys.argv[1]), sys.argv[2]
head = '/* porch flat text, version 1 */\n#include "porch.h"\n'
if kind == "walk":
    count = int(sys.argv[3])
    print(f"{head}POINTER(8, 9);\nSTRUCT(9, 4, 8);\nPOINTER(10, 8);\nFUNCTION(0, main, 4, 0);\nVAR(0, 4);\nVAR(1, 4);\nVAR(2, 8);\nVAR(3, 8);\n"
          "VAR(4, 10);\nBEGIN();\nMOVE(v0, 0);\nMOVE(v2, 0);\nJUMP(1);\nLABEL(0);\nTURN();\nALLOC(v3, 1);\nMEMBER(v4, v3, 1);\nSTORE(v4, v2);\n"
          f"MOVE(v2, v3);\nADD(v0, v0, 1);\nLABEL(1);\nLT(v1, v0, {count});\nIF(v1, 0);\nMOVE(v0, 0);\nMOVE(v3, v2);\nJUMP(3);\nLABEL(2);\nTURN();\n"
          "MEMBER(v4, v3, 1);\nLOAD(v3, v4);\nNE(v1, v3, 0);\nIF(v1, 4);\nMOVE(v3, v2);\nLABEL(4);\nADD(v0, v0, 1);\nLABEL(3);\n"
          f"LT(v1, v0, {turns});\nIF(v1, 2);\nRETURN(0);\nEND();")
    sys.exit()
if kind == "row":
    count = int(sys.argv[3])
    print(f"{head}POINTER(8, 4);\nFUNCTION(0, main, 4, 0);\nVAR(0, 4);\nVAR(1, 4);\nVAR(2, 8);\nVAR(3, 8);\nVAR(4, 4);\nBEGIN();\nMOVE(v0, 0);\n"
          f"MOVE(v4, 0);\nALLOC(v2, {count});\nMOVE(v3, v2);\nJUMP(1);\nLABEL(0);\nTURN();\nSTORE(v3, v0);\nSTEP(v3, v3, 1);\nADD(v4, v4, 1);\n"
          f"LT(v1, v4, {count});\nIF(v1, 2);\nMOVE(v3, v2);\nMOVE(v4, 0);\nLABEL(2);\nADD(v0, v0, 1);\nLABEL(1);\nLT(v1, v0, {turns});\n"
          "IF(v1, 0);\nRETURN(0);\nEND();")
    sys.exit()
inner = "FUNCTION(0, next, 4, 1);\nVAR(0, 4);\nVAR(1, 4);\nBEGIN();\nADD(v1, v0, 1);\nRETURN(v1);\nEND();\n"
types = "ARRAY(8, 4, 3);\nPOINTER(9, 8);\n"
bodies = {
    "sums": "ADD(v1, v0, 1);\nADD(v1, v1, 0);\nADD(v1, v1, 0);\nMOVE(v0, v1);\n",
    "calls": "CALL(v0, 0, v0);\n",
    "blocks": "ALLOC(v2, 1);\nFREE(v2);\nADD(v0, v0, 1);\n",
}
before = {"sums": "", "calls": inner, "blocks": types}[kind]
number = 1 if kind == "calls" else 0
pointer = "VAR(2, 9);\n" if kind == "blocks" else ""
print(f"{head}{before}FUNCTION({number}, main, 4, 0);\nVAR(0, 4);\nVAR(1, 4);\n{pointer}BEGIN();\nMOVE(v0, 0);\nJUMP(1);\nLABEL(0);\nTURN();\n"
      f"{bodies[kind]}LABEL(1);\nLT(v1, v0, {turns});\nIF(v1, 0);\nRETURN(0);\nEND();")
