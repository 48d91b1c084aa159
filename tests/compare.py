#!/usr/bin/env python3
"""Compares `padnet replay` with the second program of tests/oracle.py, on pads that are made at random.

usage: tests/compare.py [--seed N] [--count N] [--heights N,N,..] [--no-checkpoints] [--program PATH]

Each pad is a list of lines: patches of many operations that insert and remove, on characters that are one unit or two;
patches that do not fit, for each reason; checkpoints at their distance and off it; forks, branches that pass the kept
root, parents that come late or never, repeats, other spellings, and lines that spell no message. One more pad reaches
the limits of a text and of a content. At the first report that differs, the lines are made fewer while it still does;
what is left, and how the reports differ, is printed, and the status is 1.
"""

import argparse
import difflib
import json
import os
import random
import subprocess
import sys
import tempfile
from collections import Counter

import oracle
from oracle import BASE, Message, Operation, document_hash

TOP = os.path.dirname(os.path.dirname(os.path.abspath(__file__)))
LETTERS = ["abcxyz", ' "\\/|', "\b\f\n\r\t\0\x1b\x7f", "éßπ\u0301", "\u2028\ud7ff\ue000\ufeff\uffff", "\U0001f600\U00010000\U0010ffff"]

# Misfits.


def too_early(rng, ops, text):
    """Operations of which one starts before the one before it ends."""
    ops = ops if len(ops) > 1 else (ops or [Operation(0, len(text), "")]) * 2
    at = rng.randrange(1, len(ops))
    earlier, later = ops[at - 1], ops[at]
    start = max(0, earlier.offset + earlier.remove - rng.choice([1, 1, 2, 5]))
    return rng.choice([ops[:at] + [later._replace(offset=start)] + ops[at + 1 :], ops[::-1]])


def too_far(rng, ops, text):
    """The last operation ends after the text."""
    last = rng.choice(
        [Operation(len(text) + 1, 0, "a"), Operation(len(text), 1, ""), Operation(0, len(text) + 1, "")]
        + [Operation(oracle.LARGEST_NUMBER, oracle.LARGEST_NUMBER, "b")]
    )
    return rng.choice([[last], [op for op in ops if op.offset + op.remove <= last.offset] + [last]])


def within_pair(rng, ops, text):
    """An operation starts or ends between the two units of a pair."""
    cuts = [at for at in range(len(text)) if oracle.cuts_pair(text, at)]
    if not cuts:
        return too_far(rng, ops, text)
    at = rng.choice(cuts)
    return [rng.choice([Operation(at, 0, "a"), Operation(at - 1, 1, ""), Operation(at, 1, ""), Operation(at - 1, 1, "b")])]


# Contents.


def spelled_string(rng, text):
    """One of the JSON strings of a text."""

    def spelled(character):
        style = rng.random()
        if style < 0.7:
            return json.dumps(character, ensure_ascii=style < 0.1)[1:-1]
        if character == "/":
            return "\\/"
        digits = "%04x" if style < 0.85 else "%04X"
        return "".join("\\u" + digits % ord(unit) for unit in oracle.units(character))

    return '"' + "".join(map(spelled, oracle.characters(text))) + '"'


def spelling(rng, message):
    """One of the contents that spell a message."""
    if rng.random() < 0.4:
        return rng.choice(["", "", "cp|"]) + oracle.compact(message)

    def name(digits):
        return spelled_string(rng, digits) if rng.random() < 0.2 else f'"{digits}"'

    parts = ["[", "2" if message.interval is None else "4", ",", "["]
    for op in message.operations:
        parts += ["[", str(op.offset), ",", str(op.remove), ",", spelled_string(rng, op.insert), "]", ","]
    parts += [name(message.before), "]", ",", name(message.parent)]
    if message.interval is not None and (message.interval != 50 or rng.random() < 0.5):
        parts += [",", str(message.interval)]
    parts += ["]"]
    rate = rng.choice([0, 0.1, 0.5])
    spaced = "".join((rng.choice([" ", "\t", "\r", " \t "]) if rng.random() < rate else "") + part for part in parts)
    return rng.choice(["", "", "cp|"]) + spaced + rng.choice(["", "", " ", "\r"])


def junk():
    """Lines most of which spell no message, though nearly."""
    empty = document_hash("")
    patch, kept = f'[2,[[0,0,"a"],"{empty}"],"{BASE}"]', f'[4,[[0,0,""],"{empty}"],"{BASE}"]'
    changed = [
        ("[2", "[3"), ("[2", "[02"), ("[2", "[2.0"), ("[2", "[+2"), ("[2", "[null"), ("[2", '["2"'), ("[2", "[[2"), ("[2", "[true"),
        ("[0,0", "[-0,0"), ("[0,0", "[0.0,0"), ("[0,0", "[0e0,0"), ("[0,0", "[0,4294967296"), ("[0,0", "[4294967295,4294967295"),
        ("[0,0", "[0" + "9" * 400 + ",0"), ("[0,0", "[18446744073709551616,0"), ("0,0,", "0,0,0,"), ("0,0,", "0,"), ("0,0,", "0,0,,"),
        ('"a"', "1"), ('"a"', "null"), ('"a"', '"\\ud83d"'), ('"a"', '"\\ude00\\ud83d"'), ('"a"', '"\\ud83d\\ude00"'), ('"a"', '"\\x61"'),
        ('"a"', '"\\u00e"'), ('"a"', '"\t"'), ('"a"', '"\x00"'), ('"a"', "'a'"), ('"a"', '"a'), ('"a"', '"-+.eE"'), ('"a"', '"\\\\"'),
        (empty, empty.upper()), (empty, empty[1:]), (empty, empty + "0"), (BASE, BASE[1:]), (BASE, BASE + "0"), (BASE, "g" + BASE[1:]),
        (f'"{BASE}"', f'"{BASE}",50'), (f'"{BASE}"', f'"{BASE}",0'), (f'"{BASE}"', f'"{BASE}",'), (f'"{BASE}"', "0"), (f',"{BASE}"', ""),
        (f'"{empty}"', f'"{empty}",[0,0,"b"]'), (f'"{empty}"', ""), ("]", "],", ), ("]", "]]"), ("]", "}"), (",", ";"), (",", "\u00a0,"), (",", " , "),
    ]  # fmt: skip
    intervals = ["9", "10", "11", "50", "999", "1000", "1001", "010", "10.0", "1e2", "-10", "null", '"10"', "[10]", "10,10", "65546", ""]
    lines = [patch.replace(old, new, 1) for old, new in changed]
    lines += [kept[:-1] + f",{interval}]" for interval in intervals]
    lines += [start + patch for start in ("cp|cp|", " cp|", "cp |", "CP|", "cp", "\ufeff", "//", "0 ", "\x0b", "\u2028")]
    lines += [patch + end for end in ("x", "0", "]", "\x00", "\ufeff", " []", "cp|")]
    lines += ["", "cp|", "hello", "null", "[]", "{}", "[2]", "[2,[]]", f'[2,[],"{BASE}"]', "[" * 200, "[" * 127 + "]" * 127, patch[:-1], kept]
    return [line.encode() for line in lines] + [patch.encode().replace(b'"a"', b'"%s"' % wrong) for wrong in (b"\xff", b"\xc0\x80", b"\xed\xa0\x80")]


JUNK = junk()


def mutated(rng, line):
    """The line with some bytes changed, left out or put in."""
    line = bytearray(line)
    for _ in range(rng.choice([1, 1, 2])):
        at = rng.randrange(len(line) + 1)
        line[at : at + rng.choice([0, 1, 1, 3])] = rng.choice([b"", b"0", b"7", b'"', b",", b"]", b"[", b"\\", b" ", b"\n", b"\xf0", b"a"])
    return bytes(line)


# Pads.


class Pad:
    """Messages that are made at random, each on one that was made before."""

    def __init__(self, rng, checkpoints):
        self.rng = rng
        self.checkpoints = checkpoints
        self.made = oracle.Replay()
        self.letters = rng.choice([LETTERS[:1], LETTERS[:1] + LETTERS[-1:], LETTERS])
        self.intervals = rng.choice([[10], [10, 11, 12], [10, 10, 10, 13, 30], [50]])
        self.wrong = rng.choice([0, 0.02, 0.1, 0.3])

    def text(self, length):
        return oracle.units("".join(self.rng.choice(self.rng.choice(self.letters)) for _ in range(length)))

    def operations(self, text):
        """Operations that fit the text, some of which touch."""
        rng, ops, at = self.rng, [], self.rng.randint(0, len(text))
        gaps = [0, 0, 1, 2, 9]
        for _ in range(rng.choice([0, 1, 1, 1, 1, 2, 3, 8, 20])):
            start = min(len(text), at + rng.choice(gaps) if ops else at)
            end = min(len(text), start + rng.choice([0, 0, 0, 1, 1, 2, 5]))
            start, end = (place + oracle.cuts_pair(text, place) for place in (start, end))
            ops.append(Operation(start, end - start, self.text(rng.choice([0, 1, 1, 1, 2, 6]))))
            at = end
        return ops

    def add(self, parent, interval, ops, before):
        """Makes a message, and gives its name and whether it is sound."""
        name = self.made.receive(Message(interval, tuple(ops), before, parent))
        return name, self.made.places[name].text is not None

    def patch(self, parent, wrong):
        rng, text = self.rng, self.made.places[parent].text
        if text is None:
            text = rng.choice(["", "abc"])
        ops, before = self.operations(text), document_hash(text)
        if wrong:
            ops = rng.choice([too_early, too_far, within_pair, lambda rng, ops, text: ops])(rng, ops, text)
            before = rng.choice([before, before, before, document_hash(text + "?"), BASE])
        return self.add(parent, None, ops, before)

    def checkpoint(self, parent, wrong):
        rng, text = self.rng, self.made.places[parent].text or ""
        whole, before = [Operation(0, len(text), text)], document_hash(text)
        if wrong:
            whole = rng.choice(
                [
                    [],
                    whole + [Operation(len(text), 0, "")],
                    [Operation(0, len(text), text + "a")],
                    [Operation(0, len(text), "")],
                    [Operation(0, 0, "")],
                    [Operation(0, len(text) + 1, text)],
                    whole,
                ]
            )
            before = rng.choice([before, before, document_hash(text + "?")])
        interval = rng.choice(self.intervals) if rng.random() < 0.97 else rng.choice([50, 1000, rng.randint(10, 1000)])
        return self.add(parent, interval, whole, before)

    def is_due(self, parent):
        place = self.made.places[parent]
        return (place.height + 1 - place.checkpoint) % place.interval == 0

    def grow(self, parent):
        """Makes a message on the parent, and gives the tip to go on from."""
        rng, wrong = self.rng, self.rng.random() < self.wrong
        if self.checkpoints and rng.random() < (0.9 if self.is_due(parent) else 0.03):
            name, sound = self.checkpoint(parent, wrong)
        else:
            name, sound = self.patch(parent, wrong)
        if sound:
            return name
        if rng.random() < 0.3:
            self.patch(name, False)
        return name if rng.random() < 0.02 else parent

    def on_best(self, height):
        """The name at most so high on the best chain, or the base's."""
        name = self.made.best
        while self.made.places[name].height > max(0, height):
            name = self.made.messages[name].parent
        return name

    def height(self):
        """That of the best chain."""
        return self.made.places[self.made.best].height

    def fill(self, height):
        """Makes messages: a trunk with forks, branches that may pass it, and wrong messages on top."""
        rng, forks = self.rng, self.rng.choice([0, 0.02, 0.1, 0.2])
        tip = BASE
        while self.height() < height:
            if rng.random() < forks:
                tip = self.on_best(self.height() - rng.choice([1, 2, 3, rng.randint(0, height)]))
            elif rng.random() < 0.2:
                tip = self.made.best
            tip = self.grow(tip)
        self.wrong = 0
        for _ in range(rng.choice([0, 1, 1, 2, 3])):
            self.branch()
        if rng.random() < 0.6:
            self.top()

    def branch(self):
        """A branch from somewhere on the best chain, about as high: with checkpoints, without, or not sound."""
        rng, places = self.rng, self.made.places
        root, height = places[self.made.root].height, self.height()
        tip = self.on_best(rng.choice([rng.randint(0, root), rng.randint(root, height)]))
        height += rng.randint(-1, 3)
        kind = rng.choice(["checkpoints", "checkpoints", "patches", "patches", "not sound"])
        if kind == "not sound":
            tip, _ = self.patch(tip, True)
        while places[tip].height < height:
            # On a message that is not sound nothing is: what grows there would stay where it is.
            grows = kind == "checkpoints" and places[tip].text is not None
            tip = self.grow(tip) if grows else self.patch(tip, False)[0]

    def top(self):
        """Messages on the best chain that would better it, were they sound."""
        tip, wrong = self.made.best, self.patch
        if self.checkpoints and self.rng.random() < 0.5:
            wrong = self.checkpoint
            for _ in range(50):
                tip = tip if self.is_due(tip) else self.grow(tip)
        wrong(tip, True)
        wrong(tip, True)

    def lines(self):
        """The messages as lines, in some order, with repeats and lines that spell none."""
        rng, messages = self.rng, list(self.made.messages.values())
        late = rng.choice([0, 0, 0, 0.02, 0.1])
        lost = rng.choice([0, 0, 0, 0, 0, 0, 0, 0.01])
        reach = rng.choice([0, 0, 3, 20, 10**6])
        repeats = rng.choice([0, 0.05, 1])
        placed = []
        for place, message in enumerate(messages):
            if rng.random() < lost:
                continue
            at = place + rng.random() * reach + (len(messages) if rng.random() < late else 0)
            placed += [(at, spelling(rng, message).encode())]
            while rng.random() < repeats / 2:
                placed += [(rng.uniform(0, 2 * len(messages)), spelling(rng, message).encode())]
        for _ in range(int(len(placed) * rng.choice([0, 0.05, 0.5]))):
            line = rng.choice(JUNK) if rng.random() < 0.5 else mutated(rng, rng.choice(placed)[1])
            if self.checkpoints or not any(map(is_checkpoint, line.split(b"\n"))):
                placed += [(rng.uniform(0, 2 * len(messages)), line)]
        placed.sort(key=lambda line: line[0])
        return [line for _, line in placed]


def is_checkpoint(line):
    try:
        return oracle.read(line).interval is not None
    except oracle.Unreadable:
        return False


def limits(checkpoints):
    """The lines of a pad that reaches the limits of a text and of a content."""
    pad = Pad(random.Random(0), checkpoints)
    empty = document_hash("")
    full, _ = pad.add(BASE, None, [Operation(0, 0, "b" * (oracle.LONGEST_TEXT - 1))], empty)
    for insert in ("c", "cd", oracle.units("\U0001f600")):
        pad.add(full, None, [Operation(5, 0, insert)], document_hash(pad.made.places[full].text))
    pad.add(BASE, None, [Operation(0, 0, "")] * oracle.MOST_OPERATIONS, empty)
    pad.add(BASE, None, [Operation(0, 0, "")] * (oracle.MOST_OPERATIONS + 1), empty)
    lines = [oracle.compact(message).encode() for message in pad.made.messages.values()]
    short = oracle.compact(Message(None, (), empty, BASE)).encode()
    for more in (0, 1):
        lines += [b"cp|" + b" " * (oracle.LONGEST_CONTENT + more - 3 - len(short)) + short.replace(b"[2", b"[%d" % 2, 1)]
    if checkpoints:
        lines += [oracle.compact(Message(50, (Operation(0, 0, "\0" * oracle.LONGEST_TEXT),), empty, BASE)).encode()]
    return lines


# The comparison.


def report_of(program, data):
    """The report that the program writes, and its status if that is not 0."""
    run = subprocess.run([program, "replay"], input=data, stdout=subprocess.PIPE, stderr=subprocess.STDOUT)
    return run.stdout.decode("utf-8", "replace") + (f"status {run.returncode}\n" if run.returncode else "")


def differs(program, lines):
    data = b"\n".join(lines)
    return report_of(program, data) != oracle.replay(data).report()


def fewer(program, lines, tries=400):
    """The lines less what can be left out while the reports still differ."""
    size = len(lines) // 2
    while size:
        at = 0
        while at < len(lines) and tries:
            tries -= 1
            rest = lines[:at] + lines[at + size :]
            if differs(program, rest):
                lines = rest
            else:
                at += size
        size //= 2
    return lines


def show(program, lines, what):
    lines = fewer(program, lines)
    data = b"\n".join(lines)
    with tempfile.NamedTemporaryFile(prefix="replay-", suffix=".txt", delete=False) as kept:
        kept.write(data)
    print(f"{what}: the reports differ on the {len(lines)} lines of {kept.name}")
    wanted, found = oracle.replay(data).report(), report_of(program, data)
    for line in difflib.unified_diff(wanted.splitlines(), found.splitlines(), "wanted", "found", n=0, lineterm=""):
        print(line if len(line) < 160 else line[:160] + " ..")


def built():
    """The program that ./padnet runs, which builds it first if need be."""
    subprocess.run([os.path.join(TOP, "padnet"), "replay"], stdin=subprocess.DEVNULL, stdout=subprocess.DEVNULL, check=True)
    return os.path.join(TOP, "crates", "padnet", "out", "padnet")


def reached(received):
    """What the pad was a case of."""
    yield from (("root above the base", received.root != BASE), ("overtaken", received.overtaken > 0))
    yield from (("waiting", len(received.places) <= len(received.messages)), ("unreadable", received.unreadable > 0))
    for message in received.messages.values():
        before = received.places.get(message.parent)
        if before and before.text is not None:
            yield oracle.misfit(message, before.text) or "fits", True


def main():
    words = argparse.ArgumentParser(description="Compares `padnet replay` with a second program, on pads that are made at random.")
    words.add_argument("--seed", type=int, default=1)
    words.add_argument("--count", type=int, default=40, help="the number of pads")
    words.add_argument("--heights", default="2,30,60,100,100,140,140", help="how high a best chain gets: one of these for each pad")
    words.add_argument("--no-checkpoints", action="store_true", help="makes patches alone")
    words.add_argument("--program", help="what is run, and not built, in place of ./padnet")
    words = words.parse_args()
    oracle.self_test()
    program = words.program or built()
    heights = [int(height) for height in words.heights.split(",")]
    cases, total = Counter(), 0
    for number in range(words.count + 1):
        rng = random.Random(f"{words.seed} {number}")
        if number:
            pad = Pad(rng, not words.no_checkpoints)
            pad.fill(rng.choice(heights))
            lines = pad.lines()
        else:
            lines = limits(not words.no_checkpoints)
        data = b"\n".join(lines) + rng.choice([b"", b"\n", b"\n\n"])
        received = oracle.replay(data)
        if report_of(program, data) != received.report():
            show(program, oracle.lines_of(data), f"seed {words.seed}, pad {number}")
            return 1
        cases.update(case for case, holds in reached(received) if holds)
        total += len(lines)
    print(f"{words.count + 1} pads, {total} lines: the same reports ({', '.join(f'{case} {n}' for case, n in cases.items())})")
    return 0


if __name__ == "__main__":
    sys.exit(main())
