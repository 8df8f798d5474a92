#!/usr/bin/env python3
"""Prints a C program of at most so many bytes. usage: source_text.py BYTES statements|declarations|comments"""
import sys

KINDS = {
    "statements": (
        "int a[10]; int f(int x){return x;}\nint main(void)\n{\n    int i = 0, j = 1;\n",
        "    i = 3 * j - (5 + i);\n    a[i & 7] += f(j) << 2;\n    if (i < 10 && j != 0x1f) { j++; }\n",
        "    return 0;\n}\n",
    ),
    "declarations": (
        "",
        "static int row_{0}[4] = {{1, 2, 3, 0x7f}};\nlong sum_{0} = 17 + 'a' * 2;\nchar text_{0}[] = \"a text\\n\";\n",
        "int main(void)\n{\n    return 0;\n}\n",
    ),
    "comments": ("", "/* A comment, which says what stands here, and why it does. */\n", "int main(void){return 0;}\n"),
}

size = int(sys.argv[1])
head, line, tail = KINDS[sys.argv[2]]
left = size - len(head) - len(tail)
lines = []
while True:
    text = line.format(len(lines)) if sys.argv[2] == "declarations" else line
    left -= len(text)
    if left < 0:
        break
    lines.append(text)
print(head + "".join(lines) + tail, end="")
