#!/usr/bin/env python3
"""Measures `padnet generate` beside `padnet replay` of the same contents, which `tests/generator.py` makes.

usage: bench/generate.py [--program PATH] [--times N] [COUNT ..]      1,000, 10,000 and 100,000 where no count is given

Each is run so many times in turn, 3 where it is not said. It prints the least seconds of processor time of each, their ratio, and the peak memory
of each, and ends with status 1 where the two reports differ.
"""

import argparse
import os
import subprocess
import sys

TOP = os.path.dirname(os.path.dirname(os.path.abspath(__file__)))
sys.path.insert(0, os.path.join(TOP, "tests"))

from generator import given_out, in_order
from replay import measured

NUMBER = 1


def row(program, count, times):
    """Prints what so many messages take, and tells whether both reports are the same."""
    contents = given_out(in_order(NUMBER, count))
    generated, replayed = [], []
    for _ in range(times):
        generated.append(measured(program, [], ("generate", str(NUMBER), str(count))))
        replayed.append(measured(program, contents))
    one, other = (min(run[2] for run in runs) for runs in (generated, replayed))
    memory, others = (max(run[3] for run in runs) / 1024 for runs in (generated, replayed))
    print(f"{count:8} {one:10.2f} {other:10.2f} {one / max(other, 0.01):8.2f} {memory:12.1f} {others:12.1f}", flush=True)
    want = f"generated {count}\n" + replayed[0][0].rpartition("text ")[0]
    right = all(run[:2] == (want, 0) for run in generated) and all(run[1] == 0 for run in replayed)
    if not right:
        print(f"{count}: the reports differ")
    return right


def main():
    words = argparse.ArgumentParser(description="Measures `padnet generate`.")
    words.add_argument("counts", nargs="*", type=int)
    words.add_argument("--times", type=int, default=3)
    words.add_argument("--program", help="what is measured, and not built, in place of ./padnet")
    words = words.parse_args()
    if not words.program:
        subprocess.run([os.path.join(TOP, "padnet"), "replay"], stdin=subprocess.DEVNULL, stdout=subprocess.DEVNULL, check=True)
    program = words.program or os.path.join(TOP, "crates", "padnet", "out", "padnet")
    print("messages   generate     replay    ratio generate MiB   replay MiB", flush=True)
    right = True
    for count in words.counts or [1000, 10000, 100000]:
        right &= row(program, count, words.times)
    return 0 if right else 1


if __name__ == "__main__":
    sys.exit(main())
