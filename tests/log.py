#!/usr/bin/env python3
"""Compares `padnet log` with folders that this program writes by the rules, of both forms, with damages and with nothing in them."""

import argparse
import json
import pathlib
import random
import subprocess
import tempfile

ROOT = pathlib.Path(__file__).resolve().parent.parent
MAGICS = {1: b"PADLOG1\n", 2: b"PADLOG2\n"}


def file_of(form, payloads):
    """A whole log file: its magic, an open gate before each payload and its length, and a closed one."""
    frames = b"".join(b"\x01" + len(it).to_bytes(4, "big") + it for it in payloads)
    return MAGICS[form] + frames + b"\x00"


def entry(source):
    """A random entry: moment, sender, content."""
    content = "".join(source.choice('ab"\\\n\t\u20ac\U0001f600') for _ in range(source.randrange(40)))
    return source.randrange(2**64), f"{source.randrange(2**128):032x}", content


def lines_of(entries):
    """What `log` writes of them."""
    told = [
        f"{at} {moment} {sender} {json.dumps(content, ensure_ascii=False)}"
        for at, (moment, sender, content) in enumerate(entries)
    ]
    return "\n".join([*told, f"entries {len(entries)}"]) + "\n"


def payload(form, one):
    moment, sender, content = one
    front = moment.to_bytes(8, "big") if form == 2 else b""
    return front + sender.encode() + content.encode()


def case(source):
    """The two files of a channel, or none of them, and what `log` ends with and writes."""
    old = [entry(source) for _ in range(source.randrange(6))]
    new = [entry(source) for _ in range(source.randrange(6))]
    moved = [(0, sender, content) for _, sender, content in old]
    one = file_of(1, [payload(1, it) for it in old])
    marked = [payload(2, it) for it in moved] + [b""] + [payload(2, it) for it in new]
    kind = source.randrange(8)
    if kind == 0:
        return None, None, 0, lines_of([])
    if kind == 1:
        return one, None, 0, lines_of(moved)
    if kind == 2:
        return None, file_of(2, marked), 0, lines_of(moved + new)
    if kind == 3:  # the marker is there, so the file of the older form counts no more
        return b"broken bytes", file_of(2, marked), 0, lines_of(moved + new)
    if kind == 4:  # a move that did not come to its marker: the older form counts
        return one, file_of(2, [payload(2, it) for it in moved]), 0, lines_of(moved)
    if kind == 5:  # a stop within the last frame
        cut = file_of(2, [*marked, payload(2, entry(source))])
        return one, cut[: -source.randrange(2, 30)], 0, lines_of(moved + new)
    if kind == 6:
        return one, b"PADLOG1\n" + bytes(2), 10, "damaged\n"
    short = source.choice([b"x" * 39, bytes(8) + b"A" * 32, bytes(8) + b"0" * 32 + b"\xff"])
    return one, file_of(2, [*marked, short]), 10, "damaged\n"


def main():
    words = argparse.ArgumentParser(description=__doc__)
    words.add_argument("--count", type=int, default=20, help="how many folders")
    words.add_argument("--seed", type=int, default=1)
    words.add_argument("--program", default=ROOT / "crates/padnet/out/padnet")
    given = words.parse_args()
    source = random.Random(given.seed)
    for at in range(given.count):
        with tempfile.TemporaryDirectory() as folder:
            channel = f"{source.randrange(2**128):032x}"
            one, two, status, output = case(source)
            files = {f"{channel}.padlog": one, f"{channel}.padlog2": two}
            for name, held in files.items():
                if held is not None:
                    pathlib.Path(folder, name).write_bytes(held)
            ran = subprocess.run([given.program, "log", folder, channel], capture_output=True, check=False, timeout=60)
            after = {it.name: it.read_bytes() for it in pathlib.Path(folder).iterdir()}
            if (ran.returncode, ran.stdout.decode()) != (status, output):
                raise SystemExit(f"folder {at}: {ran.returncode} {ran.stdout!r}, not {status} {output!r}")
            if after != {name: held for name, held in files.items() if held is not None}:
                raise SystemExit(f"folder {at}: a file is not what it was")
    print(f"{given.count} folders: the same logs")


if __name__ == "__main__":
    main()
