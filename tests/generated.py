#!/usr/bin/env python3
"""Compares `padnet generate` with a second program: what `tests/oracle.py` reports of the contents of `tests/generator.py`.

usage: tests/generated.py --program PATH [NUMBER COUNT]      one summary; some small ones, and words that are no command, where none is given

It prints what differs, and then ends with status 1.
"""

import argparse
import os
import subprocess
import sys

HERE = os.path.dirname(os.path.abspath(__file__))
SUMMARIES = [(7, 1), (7, 16), (7, 17), (0, 50), (2**64 - 1, 120), (7, 1000)]
NO_COMMANDS = ["", "7", "7 0", "7 100001", "7 01", "07 1", "+7 1", "7 +1", "-1 1", f"{2**64} 1", "7 1 1", "x 1", "7 x"]


def python(name, words, given=b""):
    """What one of the programs beside this one writes."""
    return subprocess.run([sys.executable, os.path.join(HERE, name), *words], input=given, stdout=subprocess.PIPE, check=True).stdout


def expected(number, count):
    """What is to be written: the line of the count, and the report without its text."""
    report = python("oracle.py", [], python("generator.py", [str(number), str(count)]))
    lines = report.splitlines(keepends=True)
    assert lines[-1].startswith(b"text ")
    return b"generated %d\n" % count + b"".join(lines[:-1])


def compare(program, words, status, output):
    """Whether the program ends so."""
    done = subprocess.run([program, "generate", *words], stdin=subprocess.DEVNULL, stdout=subprocess.PIPE, stderr=subprocess.DEVNULL, timeout=600)
    if (done.returncode, done.stdout) == (status, output):
        return True
    print(f"generate {' '.join(words)}: status {done.returncode}, and\n{done.stdout.decode()}where status {status} is expected, and\n{output.decode()}")
    return False


def main():
    parser = argparse.ArgumentParser()
    parser.add_argument("--program", required=True)
    parser.add_argument("numbers", nargs="*", type=int)
    given = parser.parse_args()
    pairs = [tuple(given.numbers)] if given.numbers else SUMMARIES
    same = [compare(given.program, [str(number), str(count)], 0, expected(number, count)) for number, count in pairs]
    if not given.numbers:
        same += [compare(given.program, line.split(), 2, b"usage\n") for line in NO_COMMANDS]
    sys.exit(0 if all(same) else 1)


if __name__ == "__main__":
    main()
