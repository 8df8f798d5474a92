#!/usr/bin/env python3
"""Prints a plain flat text of about so many bytes. usage: flat_text.py BYTES [one]

It has many functions, with a global for each function and three types for each ten. With `one` it is a single function."""
import sys

HEAD = '/* porch flat text, version 1 */\n#include "porch.h"\n'
TYPES = "POINTER(8, 4);\nSTRUCT(9, 4, 6, 8);\nPOINTER(10, 9);\nARRAY(11, 4, 16);\nPOINTER(12, 0);\n"
MORE_TYPES = "STRUCT({0}, 9, 4, 11);\nPOINTER({1}, {0});\nARRAY({2}, {0}, 10);\n"
FIRST_TYPES = 13
GLOBAL = "GLOBAL({0}, 9);\nINIT({0}, 0, {1});\nINIT({0}, 1, -2147483648);\n"
VARIABLES = "".join(f"VAR({n}, {ty});\n" for n, ty in enumerate([4, 8, 4, 6, 10, 8, 9, 4]))
# A loop, and a way around a call.
BLOCK = """LABEL({label});
TURN();
ADD(v2, v2, v0);
MUL(v7, v2, 17);
SUB(v7, v7, -2147483648);
LOCAL(v4, v6, 0);
MEMBER(v5, v4, 0);
STORE(v5, v2);
LOAD(v7, v5);
CAST(v3, v7);
LT(v7, v2, v0);
IF(v7, {label});
XOR(v2, v2, 255);
SHL(v2, v2, 3);
GLOBALA(v4, {on}, 0);
MEMBER(v5, v4, 0);
STEP(v5, v5, 1);
STORE(v5, 100);
EQ(v7, v2, 7);
IF(v7, {next});
CALL(v2, {called}, v7, v5);
LABEL({next});
CHAR(v7, 65);
DEC(v7, v2);
"""
END = "RETURN(v2);\nEND();\n"
FIRST = "FUNCTION(0, f0, 4, 2);\n" + VARIABLES + "BEGIN();\nCHECKPOINT();\n" + END
MAIN = "FUNCTION({0}, main, 4, 0);\nVAR(0, 4);\nVAR(1, 8);\nBEGIN();\nGLOBALA(v1, 0, 0);\nCALL(v0, {1}, 3, v1);\nRETURN(v0);\nEND();\n"


def function(n):
    head = f"FUNCTION({n}, function_{n}, 4, 2);\n{VARIABLES}BEGIN();\nMOVE(v2, 0);\n"
    return head + BLOCK.format(label=0, next=1, called=n - 1, on=n) + END


def many(size):
    """So many functions that they, with globals and types, take so many bytes."""
    each = len(function(10000)) + len(GLOBAL.format(10000, 10000)) + len(MORE_TYPES.format(1000, 1000, 1000)) // 10
    count = max(size // each, 1)
    types = "".join(MORE_TYPES.format(n, n + 1, n + 2) for n in range(FIRST_TYPES, FIRST_TYPES + count // 10 * 3, 3))
    globals_ = "".join(GLOBAL.format(n, n + 1) for n in range(count + 1))
    functions = FIRST + "".join(function(n) for n in range(1, count + 1))
    return types, globals_, functions, count + 1


def one(size):
    """One function of so many bytes, and f0, which it calls."""
    count = max(size // len(BLOCK.format(label=10000, next=10000, called=0, on=0)), 1)
    blocks = "".join(BLOCK.format(label=2 * n, next=2 * n + 1, called=0, on=0) for n in range(count))
    head = f"FUNCTION(1, function_1, 4, 2);\n{VARIABLES}BEGIN();\nMOVE(v2, 0);\n"
    return "", GLOBAL.format(0, 1), FIRST + head + blocks + END, 2


size = int(sys.argv[1])
types, globals_, functions, count = one(size) if sys.argv[2:] == ["one"] else many(size)
print(HEAD + TYPES + types + globals_ + functions + MAIN.format(count, count - 1), end="")
