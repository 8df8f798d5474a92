#!/usr/bin/env python3
"""Runs the commands that README.md shows, and fails where one prints something else than is shown.

usage: readme.py PROGRAM, which is the built porch
"""
import subprocess
import sys
from pathlib import Path

TOP = Path(__file__).resolve().parent.parent
PROMPT = "$ bin/porch "


def shown():
    """The commands, each with the lines that it prints."""
    runs, inside = [], False
    for line in (TOP / "README.md").read_text().splitlines():
        if line.startswith("```"):
            inside = not inside
        elif inside and line.startswith(PROMPT):
            runs.append((line.removeprefix(PROMPT), []))
        elif inside and runs:
            runs[-1][1].append(line)
    return runs


def main(arguments):
    if len(arguments) != 1:
        print(__doc__.strip())
        return 2
    program = Path(arguments[0]).resolve()
    runs = shown()
    faults = [] if runs else ["it shows no command"]
    for command, lines in runs:
        words, found, source = command.partition(" < ")
        if not found:
            faults.append(f"this command has no source: {command}")
            continue
        with open(TOP / source.strip(), "rb") as text:
            out = subprocess.run([program, *words.split()], stdin=text, stdout=subprocess.PIPE, stderr=subprocess.STDOUT, timeout=60)
        printed = out.stdout.decode(errors="replace").splitlines()
        if printed != lines:
            faults.append(f"{command}: it prints {printed}, and {lines} is shown")
    for fault in faults:
        print(f"README.md: {fault}")
    return 1 if faults else 0


if __name__ == "__main__":
    sys.exit(main(sys.argv[1:]))
