#!/usr/bin/env python3
"""A second program for generated messages, written from their definition alone.

    tests/generator.py NUMBER COUNT          the contents, a line each, as `replay` reads them
    tests/generator.py --sums NUMBER COUNT.. for each count the SHA-256 of these lines
"""
import hashlib
import json
import struct
import sys

MASK = 0xFFFFFFFF


def quarter_round(state, a, b, c, d):
    """RFC 8439, section 2.1."""
    for x, y, z, turn in ((a, b, d, 16), (c, d, b, 12), (a, b, d, 8), (c, d, b, 7)):
        state[x] = (state[x] + state[y]) & MASK
        state[z] ^= state[x]
        state[z] = ((state[z] << turn) | (state[z] >> (32 - turn))) & MASK


def words_of(number):
    """The words of ChaCha8, keyed with the number's bytes: a counter of 64 bits, and a nonce of zeros."""
    key = struct.unpack("<8I", number.to_bytes(32, "little"))
    block = 0
    while True:
        start = [0x61707865, 0x3320646E, 0x79622D32, 0x6B206574, *key, block & MASK, block >> 32, 0, 0]
        state = list(start)
        for _ in range(4):
            for column in range(4):
                quarter_round(state, column, 4 + column, 8 + column, 12 + column)
            for column in range(4):
                quarter_round(state, column, 4 + (column + 1) % 4, 8 + (column + 2) % 4, 12 + (column + 3) % 4)
        for one, other in zip(state, start):
            yield (one + other) & MASK
        block += 1


def in_order(number, count):
    """The contents in the order of the items."""
    words = words_of(number)
    items = [("0" * 64, "", 0)]
    contents = []
    for index in range(1, count + 1):
        back = 2 if next(words) % 8 == 0 else 0
        parent, text, height = items[max(0, index - 1 - back)]
        before = hashlib.sha256(text.encode()).hexdigest()
        if (height + 1) % 50 == 0:
            message, after = [4, [[0, len(text), text], before], parent], text
        else:
            choice, spot = next(words), next(words)
            if len(text) >= 64 and choice % 4 == 0:
                at = spot % len(text)
                operation, after = [at, 1, ""], text[:at] + text[at + 1:]
            else:
                at = spot % (len(text) + 1)
                letter = chr(97 + choice // 4 % 26)
                operation, after = [at, 0, letter], text[:at] + letter + text[at:]
            message = [2, [operation, before], parent]
        compact = json.dumps(message, separators=(",", ":"))
        contents.append(("cp|" if message[0] == 4 else "") + compact)
        items.append((hashlib.sha256(compact.encode()).hexdigest(), after, height + 1))
    return contents


def given_out(contents):
    """Blocks of 16, each in reverse order."""
    return [content for at in range(0, len(contents), 16) for content in contents[at:at + 16][::-1]]


def main(words):
    if words and words[0] == "--sums":
        number, *counts = map(int, words[1:])
        made = in_order(number, max(counts))
        for count in counts:
            lines = "".join(content + "\n" for content in given_out(made[:count]))
            print(f'({number}, {count}, "{hashlib.sha256(lines.encode()).hexdigest()}"),')
        return
    number, count = map(int, words)
    for content in given_out(in_order(number, count)):
        print(content)


if __name__ == "__main__":
    main(sys.argv[1:])
