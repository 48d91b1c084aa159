#!/usr/bin/env python3
"""Measures `padnet replay` on pads that are made here.

usage: bench/replay.py [--shapes SHAPE,..] [COUNT ..]      pads of each shape and count; 1,000 and 10,000 where none is given
       bench/replay.py --lengths LENGTH,.. [COUNT]         one text of each length, and so many changes of it; 2,000 where none is given
       --program PATH                                      measures this program, and builds none

It prints the seconds of processor time, the microseconds a message, the peak memory and the size of the input, and ends
with status 1 where a report is not the expected one.
"""

import argparse
import hashlib
import os
import random
import subprocess
import sys

TOP = os.path.dirname(os.path.dirname(os.path.abspath(__file__)))
BASE = "0" * 64
LONGEST = 262_144


class Place:
    """A message on its path: its name and height, and the length and hash state of the text after it, and of that before its last letter."""

    def __init__(self, name, height, length, state, before):
        self.name, self.height, self.length, self.state, self.before = name, height, length, state, before

    def rank(self):
        return (self.height, -int(self.name, 16))


def first_place():
    empty = hashlib.sha256()
    return Place(BASE, 0, 0, empty, empty)


def named(contents, content):
    contents.append(content)
    return hashlib.sha256(content.encode()).hexdigest()


def typed(contents, place, letter, wrong=False):
    """Types a letter at the end of the text, in the place of the last one where the text is full. The hash is another text's if `wrong`."""
    full = place.length == LONGEST
    before = hashlib.sha256(b"?").hexdigest() if wrong else place.state.hexdigest()
    offset = place.length - full
    name = named(contents, f'[2,[[{offset},{int(full)},"{letter}"],"{before}"],"{place.name}"]')
    kept = place.before if full else place.state
    state = kept.copy()
    state.update(letter.encode())
    return Place(name, place.height + 1, offset + 1, state, kept)


def letter_of(number):
    return chr(ord("a") + number % 26)


def typing(count, place=None, contents=None):
    """One chain that types at the end."""
    contents, place = [] if contents is None else contents, place or first_place()
    for number in range(count):
        place = typed(contents, place, letter_of(number))
    return contents, place


def shuffled(count):
    contents, place = typing(count)
    random.Random(1).shuffle(contents)
    return contents, place


def in_reverse(count):
    contents, place = typing(count)
    return contents[::-1], place


def in_blocks(count):
    """In order within blocks of a hundred, which come in a random order."""
    contents, place = typing(count)
    blocks = [contents[at : at + 100] for at in range(0, count, 100)]
    random.Random(1).shuffle(blocks)
    return [content for block in blocks for content in block], place


def waiting(count):
    """A chain whose first message never comes: all are read and named, and wait."""
    contents, _ = typing(count + 1)
    return contents[1:], first_place()


def forks(count):
    """Branches that fork within ten of the tip."""
    contents, path, rng = [], [first_place()], random.Random(1)
    for number in range(count):
        at = len(path) - (rng.randint(1, min(10, len(path))) if rng.random() < 0.3 else 1)
        place = typed(contents, path[at], letter_of(number))
        if place.rank() > path[-1].rank():
            path[at + 1 :] = [place]
    return contents, path[-1]


def behind_unsound(count):
    """A chain behind a first message that is not sound."""
    contents = []
    typing(count - 1, typed(contents, first_place(), "a", wrong=True), contents)
    return contents, first_place()


def for_one_parent(count):
    """Messages that all wait for one parent, which comes last."""
    contents, first = [], []
    parent = typed(first, first_place(), "a")
    children = [typed(contents, parent, str(number)) for number in range(count - 1)]
    return contents + first, max(children, key=Place.rank)


def checkpoints(count):
    """A text of one letter that is replaced, with a checkpoint every fifty messages."""
    contents, name, text = [], BASE, ""
    for height in range(1, count + 1):
        before, old = hashlib.sha256(text.encode()).hexdigest(), len(text)
        kind, letter = (2, letter_of(height)) if height % 50 else (4, text)
        name = named(contents, f'[{kind},[[0,{old},"{letter}"],"{before}"],"{name}"]')
        text = letter
    return contents, Place(name, count, 1, None, None)


def losing(count):
    """Two branches from the base, equally high, and messages on the end of the losing one that are not sound."""
    contents, best = typing(count // 3)
    place = first_place()
    for number in range(count // 3 - 1):
        place = typed(contents, place, letter_of(number + 1))
    ends = (typed([], place, letter_of(number)) for number in range(26))
    letter = next(number for number, end in enumerate(ends) if end.rank() < best.rank())
    end = typed(contents, place, letter_of(letter))
    while len(contents) < count:
        typed(contents, end, str(len(contents)), wrong=True)
    return contents, best


def overtaking(count):
    """Two branches from the base that overtake each other again and again."""
    contents, branches = [], [first_place(), first_place()]
    while len(contents) < count:
        which = len(contents) // 2 % 2
        branches[which] = typed(contents, branches[which], "ab"[which])
    return contents, max(branches, key=Place.rank)


SHAPES = {
    "in order": typing,
    "in reverse": in_reverse,
    "shuffled": shuffled,
    "in blocks": in_blocks,
    "waiting": waiting,
    "forks": forks,
    "behind unsound": behind_unsound,
    "for one parent": for_one_parent,
    "checkpoints": checkpoints,
    "losing": losing,
    "overtaking": overtaking,
}
USUAL = ["in order", "in reverse", "shuffled", "in blocks", "waiting", "forks", "behind unsound", "for one parent", "checkpoints"]


def changes(count, length, letter, places):
    """A text of this length, and changes of one letter in it: at its end, or at random places."""
    rng, text, contents = random.Random(1), [letter] * length, []
    name = named(contents, f'[2,[[0,0,"{letter * length}"],"{hashlib.sha256().hexdigest()}"],"{BASE}"]')
    for number in range(count):
        at = length - 1 if places == "end" else rng.randrange(length)
        before = hashlib.sha256("".join(text).encode()).hexdigest()
        text[at] = letter_of(number) if letter == "a" else chr(0xE0 + number % 26)
        name = named(contents, f'[2,[[{at},1,"{text[at]}"],"{before}"],"{name}"]')
    return contents, Place(name, count + 1, length, None, None)


# Runs a program from a small process, since what the system counts as a program's peak memory begins with that of the process that starts it.
LAUNCH = """
import os, sys
_, status, usage = os.wait4(os.posix_spawn(sys.argv[2], sys.argv[2:], os.environ), 0)
os.write(int(sys.argv[1]), f"{os.waitstatus_to_exitcode(status)} {usage.ru_utime + usage.ru_stime} {usage.ru_maxrss}".encode())
"""


def measured(program, contents, command=("replay",)):
    """The report, the status, the seconds of processor time, the peak memory in KiB and the bytes of input of one run."""
    data = "".join(content + "\n" for content in contents).encode()
    reading, writing = os.pipe()
    words = [sys.executable, "-S", "-c", LAUNCH, str(writing), program, *command]
    with subprocess.Popen(words, stdin=subprocess.PIPE, stdout=subprocess.PIPE, pass_fds=[writing]) as run:
        os.close(writing)
        run.stdin.write(data)
        run.stdin.close()
        report = run.stdout.read().decode()
    with os.fdopen(reading) as told:
        status, seconds, memory = told.read().split()
    return report, int(status), float(seconds), int(memory), len(data)


def row(program, what, contents, best):
    """Prints what one pad takes, and tells whether the report is the expected one."""
    report, status, seconds, memory, size = measured(program, contents)
    count = len(contents)
    print(f"{what:22} {count:8} {seconds:9.2f} {seconds / count * 1e6:9.1f} {memory / 1024:8.1f} {size / 2**20:7.1f}", flush=True)
    right = status == 0 and (best is None or report.startswith(f"best {best.name}\nheight {best.height}\n"))
    if not right:
        print(f"{what}: status {status}, and not the expected report: {report[:90]!r}")
    return right


def main():
    words = argparse.ArgumentParser(description="Measures `padnet replay`.")
    words.add_argument("counts", nargs="*", type=int)
    words.add_argument("--shapes", default=",".join(USUAL), help=f"some of: {', '.join(SHAPES)}")
    words.add_argument("--lengths", help="lengths of texts that are changed")
    words.add_argument("--program", help="what is measured, and not built, in place of ./padnet")
    words = words.parse_args()
    if not words.program:
        subprocess.run([os.path.join(TOP, "padnet"), "replay"], stdin=subprocess.DEVNULL, stdout=subprocess.DEVNULL, check=True)
    program = words.program or os.path.join(TOP, "crates", "padnet", "out", "padnet")
    print("pad                    messages   seconds  us a msg      MiB   input", flush=True)
    right = True
    if words.lengths:
        for count in words.counts or [2000]:
            for length in map(int, words.lengths.split(",")):
                for letter, kind in (("a", "ASCII"), ("é", "other")):
                    for places in ("end", "random"):
                        right &= row(program, f"{length} {kind} {places}", *changes(count, length, letter, places))
    else:
        for shape in words.shapes.split(","):
            for count in words.counts or [1000, 10000]:
                right &= row(program, shape, *SHAPES[shape](count))
    return 0 if right else 1


if __name__ == "__main__":
    sys.exit(main())
