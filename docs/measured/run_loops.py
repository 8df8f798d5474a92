#!/usr/bin/env python3
"""Counts the instructions of a command of the byte machine. usage: run_loops.py RUN_TIMES LAYOUT.. [-- KIND..]

RUN_TIMES is the program that run.sh builds of run_times.txt (`WITH=echo run.sh run_times x` says where). For each kind of command it runs
two loops, whose turns differ by ten of these commands, under callgrind, and prints the instructions that each of the ten takes, by
layout. `if` is an IF that goes on at a label behind it, `jump` a JUMP to one, each less a label; `call` a CALL of a function with
a parameter and another variable, with its commands and its RETURN."""
import os, re, subprocess, sys, tempfile

TURNS, COPIES = 20000, 10
HEAD = '/* porch flat text, version 1 */\n#include "porch.h"\n'
TYPES = "POINTER(8, 4);\nPOINTER(9, 6);\nPOINTER(10, 8);\n"
INNER = "FUNCTION(0, next, 4, 1);\nVAR(0, 4);\nVAR(1, 4);\nBEGIN();\nMOVE(v1, v0);\nRETURN(v1);\nEND();\n"
# v0, v1, v2 int; v3, v4 int *; v5, v6 long; v7 long *; v8 int **
VARS = "VAR(0, 4);\nVAR(1, 4);\nVAR(2, 4);\nVAR(3, 8);\nVAR(4, 8);\nVAR(5, 6);\nVAR(6, 6);\nVAR(7, 9);\nVAR(8, 10);\n"
BEGIN = "ALLOC(v3, 8);\nALLOC(v7, 8);\nALLOC(v8, 8);\nSTORE(v3, 0);\nMOVE(v4, v3);\nSTORE(v7, 0);\nSTORE(v8, v3);\nMOVE(v5, 1);\nMOVE(v2, 0);\n"
KINDS = {
    "label": "LABEL({n});\n",
    "move": "MOVE(v2, v0);\n",
    "set": "MOVE(v2, 7);\n",
    "add": "ADD(v2, v0, v0);\n",
    "add constant": "ADD(v2, v0, 1);\n",
    "subtract": "SUB(v2, v0, v1);\n",
    "less": "LT(v2, v0, v1);\n",
    "less than constant": "LT(v2, v0, 1000);\n",
    "if": "IF(v1, {n});\nLABEL({n});\n",
    "jump": "JUMP({n});\nLABEL({n});\n",
    "turn": "TURN();\n",
    "load int": "LOAD(v2, v3);\n",
    "store int": "STORE(v3, v0);\n",
    "move long": "MOVE(v6, v5);\n",
    "load long": "LOAD(v6, v7);\n",
    "store long": "STORE(v7, v5);\n",
    "load pointer": "LOAD(v4, v8);\n",
    "store pointer": "STORE(v8, v4);\n",
    "step": "STEP(v4, v3, v1);\n",
    "step by constant": "STEP(v4, v3, 1);\n",
    "call": "CALL(v2, 0, v0);\n",
}
LABELLED = {"if", "jump"}

def text(kind, copies):
    body = "".join(KINDS[kind].format(n=i + 10) for i in range(copies))
    return (f"{HEAD}{TYPES}{INNER}FUNCTION(1, main, 4, 0);\n{VARS}BEGIN();\nMOVE(v0, 0);\nMOVE(v1, 1);\n{BEGIN}JUMP(1);\nLABEL(0);\nTURN();\n"
            f"{body}ADD(v0, v0, 1);\nLABEL(1);\nLT(v1, v0, {TURNS});\nIF(v1, 0);\nRETURN(0);\nEND();\n")

def count(program, layout, kind, copies):
    with tempfile.TemporaryDirectory() as folder:
        path = os.path.join(folder, "loop.flat")
        with open(path, "w") as file:
            file.write(text(kind, copies))
        ran = subprocess.run(["valgrind", "--tool=callgrind", "--callgrind-out-file=/dev/null", program, layout, path],
                             capture_output=True, text=True)
        assert "Ended" in ran.stdout, (kind, ran.stdout, ran.stderr)
        return int(re.search(r"Collected : (\d+)", ran.stderr)[1])

words = sys.argv[2:]
kinds = words[words.index("--") + 1:] if "--" in words else list(KINDS)
layouts = words[:words.index("--")] if "--" in words else words
each = {}
for kind in kinds:
    row = []
    for layout in layouts:
        more = (count(sys.argv[1], layout, kind, COPIES) - count(sys.argv[1], layout, kind, 0)) / (TURNS * COPIES)
        each[kind, layout] = more
        if kind in LABELLED:
            more -= each.get(("label", layout), 0)
        row.append(f"{layout} {more:.1f}")
    print(f"{kind}: {', '.join(row)}", flush=True)
