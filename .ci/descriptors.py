#!/usr/bin/env python3
"""Reads what strace saw of porch_disk_calls, and prints each place where its descriptors aren't used as they must be.

usage: descriptors.py FILE SYNCS, where FILE is made by `strace -y -o FILE PROGRAM` for a session that makes four commits, and
then writes, syncs, cuts and syncs `output`; SYNCS is how many checkpoint files there were before, which it syncs first. Each file is opened once, a write or a cut is synced through
its own descriptor, the folder is locked before the first of them, and a commit makes three writes and three syncs.
"""
import re
import sys
from collections import Counter

COMMITS = 4
# NAME(DESCRIPTOR<PATH>..) = ANSWER, and of an open NAME(AT<PATH>, "FILE", ..) = DESCRIPTOR<PATH>.
CALL = re.compile(r'^(\w+)\((\w+)(?:<([^>]*)>)?(.*)\)\s+= (-?\d+)(?:<([^>]*)>)?')
CHANGES = {"pwrite64": "write", "write": "write", "ftruncate": "cut"}
SYNCS = {"fsync", "fdatasync"}
FILES = {"ck.a", "ck.b", "output", "program.ft.c", "layouts.toml", "input"}

faults = []
opens = Counter()
made = Counter()
unsynced = {}
locked = False
for line in open(sys.argv[1]):
    found = CALL.match(line)
    if not found:
        continue
    name, descriptor, path, rest, answer, opened = found.groups()
    if name in ("open", "openat") and opened:
        file = opened.rpartition("/")[2]
        if file in FILES:
            opens[file] += 1
        continue
    file = (path or "").rpartition("/")[2]
    if name == "flock" and answer == "0":
        locked = True
    if file not in FILES or answer.startswith("-"):
        continue
    if name in CHANGES:
        if not locked:
            faults.append(f"{file} is changed before the folder is locked")
        unsynced[file] = descriptor
        made[file, CHANGES[name]] += 1
    elif name in SYNCS:
        if unsynced.pop(file, descriptor) != descriptor:
            faults.append(f"{file} is synced through another descriptor than it was written through")
        made[file, "sync"] += 1
    elif name == "close" and file in unsynced:
        faults.append(f"{file} is closed before it is synced")
faults += [f"{file} is never synced" for file in unsynced]
faults += [f"{file} is opened {count} times" for file, count in opens.items() if count > 1]
faults += [f"{file} is never opened" for file in ("ck.a", "ck.b", "output") if not opens[file]]
# Each commit finds its file empty or open, so that it closes it first. All have one length, so that none has to be cut.
for what, count in (("write", 3 * COMMITS), ("cut", 0), ("sync", 3 * COMMITS + int(sys.argv[2]))):
    found = made["ck.a", what] + made["ck.b", what]
    if found != count:
        faults.append(f"{COMMITS} commits make {found} calls of the kind {what}, and not {count}")
if (made["output", "write"], made["output", "cut"], made["output", "sync"]) != (1, 1, 2):
    faults.append("the calls on the output are others than those that were asked for")
print("; ".join(faults))
