#!/usr/bin/env python3
"""Prints a program of about so many bytes that is nothing but assignments. usage: statements.py BYTES"""
import sys

HEAD = "int main(void)\n{\n    int i = 0;\n"
LINE = "    i = 3 * 4 - 5;\n"
TAIL = "    return 0;\n}\n"

size = int(sys.argv[1])
print(HEAD + LINE * ((size - len(HEAD) - len(TAIL)) // len(LINE)) + TAIL, end="")
