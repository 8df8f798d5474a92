#!/usr/bin/env python3
"""Times the lexer in turns with `gcc -fsyntax-only`. usage: lex_speed.py LEX_TIMES ROUNDS FILE..

It prints the best call of `lex`, and the best run of gcc over the file, and over an empty one for its beginning and end."""
import re, subprocess, sys, time

program, rounds = sys.argv[1], int(sys.argv[2])


def gcc(path):
    start = time.perf_counter()
    subprocess.run(["gcc", "-fsyntax-only", "-xc", path], check=True)
    return (time.perf_counter() - start) * 1000


for path in sys.argv[3:]:
    ours, theirs, empty = [], [], []
    for _ in range(rounds):
        said = subprocess.run([program, path], check=True, capture_output=True, text=True).stdout
        found = re.search(r"(\d+) bytes, (\d+) tokens, lex (\d+) ns", said)
        ours.append(int(found[3]) / 1e6)
        theirs.append(gcc(path))
        empty.append(gcc("/dev/null"))
    print(f"{path}: {found[1]} bytes, {found[2]} tokens, lex {min(ours):.3f} ms; gcc {min(theirs):.1f} ms, of an empty file {min(empty):.1f} ms", flush=True)
