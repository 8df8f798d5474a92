#!/usr/bin/env python3
"""Times the reading of flat texts in turns with CPython's `tokenize`. usage: flat_speed.py FLAT_TIMES ROUNDS FILE..

Each round runs `FLAT_TIMES parse FILE`, then `tokenize` over the same bytes here, then the first again. It prints the best of each,
and the greatest memory of FLAT_TIMES, which holds the text, in times the text's bytes."""
import io, os, re, subprocess, sys, time, tokenize

program, rounds = sys.argv[1], int(sys.argv[2])
for path in sys.argv[3:]:
    with open(path, "rb") as file:
        text = file.read()
    read, whole, theirs, most = [], [], [], 0

    def ours():
        global most
        child = subprocess.Popen([program, "parse", path], stdout=subprocess.PIPE, text=True)
        said = child.stdout.read()
        _, status, used = os.wait4(child.pid, 0)
        assert status == 0
        found = re.search(r"parse_flat (\d+) us, with Plain::new (\d+) us", said)
        read.append(int(found[1]) / 1000)
        whole.append(int(found[2]) / 1000)
        most = max(most, used.ru_maxrss * 1024)

    for _ in range(rounds):
        ours()
        start = time.perf_counter()
        count = sum(1 for _ in tokenize.tokenize(io.BytesIO(text).readline))
        theirs.append((time.perf_counter() - start) * 1000)
        ours()
    print(f"{path}: {len(text)} bytes, parse_flat {min(read):.1f} ms, with Plain::new {min(whole):.1f} ms ({max(whole):.1f} the worst), "
          f"{most / len(text):.2f} times the text; tokenize {min(theirs):.0f} ms; quotient {min(whole) / min(theirs):.4f}", flush=True)
