#!/usr/bin/env python3
"""Times the lister on the inputs over which it takes longest (tests/reference/lister_cases.py): lister.py PROGRAM [MOST]. Prints seconds, best of five runs, and fails where
one took more than MOST."""
import os
import subprocess
import sys
import time

sys.path.insert(0, os.path.join(os.path.dirname(os.path.abspath(__file__)), "..", "tests", "reference"))
import lister
import lister_cases


def seconds(program, data):
    start = time.perf_counter()
    written = subprocess.run([program], input=data, stdout=subprocess.PIPE, check=True).stdout
    took = time.perf_counter() - start
    assert written == lister.lister(data), data[:100]
    return took


def main():
    program, most = sys.argv[1], float(sys.argv[2]) if len(sys.argv) > 2 else float("inf")
    worst = 0
    for name, data in lister_cases.heavy():
        best = min(seconds(program, data) for _ in range(5))
        worst = max(worst, best)
        print(f"{name}: {best:.3f} s for {len(data)} bytes")
    print(f"longest {worst:.3f} s")
    sys.exit(worst > most)


if __name__ == "__main__":
    main()
