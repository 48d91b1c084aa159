#!/usr/bin/env python3
"""A second program for `padnet replay`: the report of the contents on the standard input, one a line.

usage: tests/oracle.py <FILE            prints the report
       tests/oracle.py --self-test      checks this program against reports that were worked out by hand

It shares nothing with the crates. It is written from the rules: it reads a content by its grammar alone, and after each
message it looks through all the linked ones again for the best chain. docs/DEFINITIONS.md retells the rules.
"""

import hashlib
import re
import struct
import sys
from collections import defaultdict
from typing import NamedTuple, Optional

BASE = "0" * 64
LONGEST_TEXT = 262_144  # UTF-16 units
LONGEST_CONTENT = 2_097_152  # bytes
MOST_OPERATIONS = 4_096
LARGEST_NUMBER = 4_294_967_295
FIRST_INTERVAL = 50


# Texts. A text is a str with one element for each UTF-16 unit, so a character past U+FFFF is two elements.


def units(characters):
    """The units of a str of characters."""
    if characters.isascii():
        return characters
    data = characters.encode("utf-16-le")
    return "".join(map(chr, struct.unpack(f"<{len(data) // 2}H", data)))


def characters(text):
    """The characters of a text. UnicodeDecodeError if a surrogate has no partner."""
    return text if text.isascii() else text.encode("utf-16-le", "surrogatepass").decode("utf-16-le")


def cuts_pair(text, at):
    return 0 < at < len(text) and "\ud800" <= text[at - 1] <= "\udbff" and "\udc00" <= text[at] <= "\udfff"


def sha256(string):
    return hashlib.sha256(string.encode()).hexdigest()


def document_hash(text):
    return sha256(characters(text))


# Messages.


class Operation(NamedTuple):
    offset: int
    remove: int
    insert: str  # units


class Message(NamedTuple):
    interval: Optional[int]  # of a checkpoint; None for a patch
    operations: tuple
    before: str
    parent: str


SHORT = {'"': '\\"', "\\": "\\\\", "\b": "\\b", "\f": "\\f", "\n": "\\n", "\r": "\\r", "\t": "\\t"}


def json_string(text):
    """A text as a JSON string, by the shortest escapes."""
    return '"' + re.sub(r'["\\\x00-\x1f]', lambda m: SHORT.get(m[0]) or f"\\u{ord(m[0]):04x}", characters(text)) + '"'


def compact(message):
    """The compact text of a message."""
    operations = "".join(f"[{op.offset},{op.remove},{json_string(op.insert)}]," for op in message.operations)
    kind = 2 if message.interval is None else 4
    interval = "" if message.interval in (None, 50) else f",{message.interval}"
    return f'[{kind},[{operations}"{message.before}"],"{message.parent}"{interval}]'


def name_of(message):
    return sha256(compact(message))


class Unreadable(Exception):
    """The content spells no message."""


class Reader:
    """Takes the parts of a message from a JSON text. White space may come before each."""

    WHITE = (" ", "\t", "\n", "\r")
    SPACE = re.compile(r"[ \t\n\r]*")
    NUMBER = re.compile(r"0|[1-9][0-9]*")
    RAW = re.compile(r'[^"\\\x00-\x1f]*')
    ESCAPE = re.compile(r'\\(?:(["\\/bfnrt])|u([0-9a-fA-F]{4}))')
    MEANT = {"b": "\b", "f": "\f", "n": "\n", "r": "\r", "t": "\t"}

    def __init__(self, text):
        self.text = text
        self.at = 0

    def takes(self, mark):
        """Takes the mark, of one character, if it comes next."""
        self.space()
        taken = self.text[self.at : self.at + 1] == mark
        self.at += taken
        return taken

    def space(self):
        if self.text[self.at : self.at + 1] in self.WHITE:
            self.at = self.SPACE.match(self.text, self.at).end()

    def expect(self, mark):
        if not self.takes(mark):
            raise Unreadable

    def number(self):
        self.space()
        found = self.NUMBER.match(self.text, self.at)
        if found is None or len(found[0]) > 10 or int(found[0]) > LARGEST_NUMBER:
            raise Unreadable
        self.at = found.end()
        return int(found[0])

    def string(self):
        self.expect('"')
        parts = []
        while True:
            raw = self.RAW.match(self.text, self.at)
            parts.append(units(raw[0]))
            self.at = raw.end()
            if self.text.startswith('"', self.at):
                break
            escape = self.ESCAPE.match(self.text, self.at)
            if escape is None:
                raise Unreadable
            parts.append(chr(int(escape[2], 16)) if escape[2] else self.MEANT.get(escape[1], escape[1]))
            self.at = escape.end()
        self.at += 1
        text = "".join(parts)
        try:
            characters(text)
        except UnicodeDecodeError as lone:
            raise Unreadable from lone
        return text

    def name(self):
        found = self.string()
        if not re.fullmatch("[0-9a-f]{64}", found):
            raise Unreadable
        return found

    def end(self):
        self.space()
        if self.at != len(self.text):
            raise Unreadable


def read(content):
    """The message that a content spells. Unreadable if it spells none."""
    if len(content) > LONGEST_CONTENT:
        raise Unreadable
    try:
        text = content.decode("utf-8")
    except UnicodeDecodeError as wrong:
        raise Unreadable from wrong
    reader = Reader(text[3:] if text.startswith("cp|") else text)
    reader.expect("[")
    kind = reader.number()
    if kind not in (2, 4):
        raise Unreadable
    reader.expect(",")
    reader.expect("[")
    operations = []
    while reader.takes("["):
        offset = reader.number()
        reader.expect(",")
        remove = reader.number()
        reader.expect(",")
        operations.append(Operation(offset, remove, reader.string()))
        reader.expect("]")
        reader.expect(",")
    before = reader.name()
    reader.expect("]")
    reader.expect(",")
    parent = reader.name()
    interval = 50 if kind == 4 else None
    if kind == 4 and reader.takes(","):
        interval = reader.number()
    reader.expect("]")
    reader.end()
    if len(operations) > MOST_OPERATIONS or (interval is not None and not 10 <= interval <= 1000):
        raise Unreadable
    return Message(interval, tuple(operations), before, parent)


# Patches.


def text_after(operations, text):
    """The text with each range replaced by its insertion."""
    parts, at = [], 0
    for op in operations:
        parts += [text[at : op.offset], op.insert]
        at = op.offset + op.remove
    return "".join(parts) + text[at:]


def misfit(message, text):
    """Why the patch of a message does not fit a text, or None if it does."""
    ops = message.operations
    if any(later.offset < earlier.offset + earlier.remove for earlier, later in zip(ops, ops[1:])):
        return "Order"
    if any(op.offset + op.remove > len(text) for op in ops):
        return "Range"
    if any(cuts_pair(text, op.offset) or cuts_pair(text, op.offset + op.remove) for op in ops):
        return "Pair"
    if len(text_after(ops, text)) > LONGEST_TEXT:
        return "TooLong"
    if message.before != document_hash(text):
        return "BeforeHash"
    return None


# Chains.


class Place(NamedTuple):
    """What a linked message leaves."""

    height: int
    text: Optional[str]  # None if the message, or one before it on its path, is not sound
    checkpoint: int  # the height of the last checkpoint of the path, or of the base
    interval: int  # that checkpoint's, or the base's


def place_after(message, before):
    """What a message leaves whose parent left `before`."""
    height = before.height + 1
    sound = before.text is not None and misfit(message, before.text) is None
    if sound and message.interval is not None:
        whole = (Operation(0, len(before.text), before.text),)
        sound = (height - before.checkpoint) % before.interval == 0 and message.operations == whole
    if not sound:
        return Place(height, None, before.checkpoint, before.interval)
    text = text_after(message.operations, before.text)
    if message.interval is None:
        return Place(height, text, before.checkpoint, before.interval)
    return Place(height, text, height, message.interval)


class Replay:
    """What was received, and what was chosen of it."""

    def __init__(self):
        self.messages = {}  # by name
        self.followers = defaultdict(list)  # names, by their parent's name
        self.places = {BASE: Place(0, "", 0, FIRST_INTERVAL)}  # of the base and of each linked message, by name
        self.ranks = {BASE: (0, 0)}  # of the same: the greater rank betters the other
        self.best = BASE
        self.root = BASE
        self.overtaken = 0
        self.unreadable = 0

    def receive_content(self, content):
        try:
            self.receive(read(content))
        except Unreadable:
            self.unreadable += 1

    def receive(self, message):
        """Receives a message, and gives its name."""
        name = name_of(message)
        if name not in self.messages and name != BASE:
            self.messages[name] = message
            self.followers[message.parent].append(name)
            linked = self.link(name)
            through = self.through_root()
            for other in linked:
                if other not in through and self.ranks[other] > self.ranks[self.best]:
                    self.overtaken += 1
            self.best = max((other for other in through if self.places[other].text is not None), key=self.ranks.get)
            cut = self.cut()
            if self.places[cut].height > self.places[self.root].height:
                self.root = cut
        return name

    def link(self, name):
        """Links a message, if its parent is linked, and all that wait for it: the names of those."""
        if self.messages[name].parent not in self.places:
            return []
        linked = [name]
        for other in linked:
            message = self.messages[other]
            place = place_after(message, self.places[message.parent])
            self.places[other] = place
            self.ranks[other] = (place.height, -int(other, 16))  # the higher one, and of one height the lesser name
            linked += self.followers[other]
        return linked

    def through_root(self):
        """The names of the root and of the messages that are linked through it."""
        through = [self.root]
        for name in through:
            through += self.followers[name]
        return set(through)

    def cut(self):
        """The last but one checkpoint of the best chain, or the base if it has fewer than two."""
        seen, name = 0, self.best
        while name != BASE:
            seen += self.messages[name].interval is not None
            if seen == 2:
                break
            name = self.messages[name].parent
        return name

    def report(self):
        text = self.places[self.best].text
        lines = {
            "best": self.best,
            "height": self.places[self.best].height,
            "hash": document_hash(text),
            "units": len(text),
            "known": len(self.messages),
            "waiting": len(self.messages) + 1 - len(self.places),
            "unreadable": self.unreadable,
            "root": f"{self.root} {self.places[self.root].height}",
            "kept": len(self.through_root()),
            "overtaken": self.overtaken,
            "text": json_string(text),
        }
        return "".join(f"{word} {value}\n" for word, value in lines.items())


def lines_of(data):
    """The lines of some bytes: a last one without an end counts if it is not empty."""
    lines = data.split(b"\n")
    return lines if lines[-1] else lines[:-1]


def replay(data):
    """What was received after all lines of some bytes."""
    received = Replay()
    for line in lines_of(data):
        received.receive_content(line)
    return received


# The self-test.


def insertion(replay, parent, letter="a", at=0):
    """Receives the insertion of a letter on a parent, and gives its name."""
    text = replay.places[parent].text
    return replay.receive(Message(None, (Operation(at, 0, letter),), document_hash(text), parent))


def insertions(replay, parent, count, letter="a"):
    for _ in range(count):
        parent = insertion(replay, parent, letter)
    return parent


def checkpoint(replay, parent, interval=50):
    """Receives the checkpoint of a parent's text, and gives its name."""
    text = replay.places[parent].text
    return replay.receive(Message(interval, (Operation(0, len(text), text),), document_hash(text), parent))


def expect(replay, **wanted):
    found = dict(line.split(" ", 1) for line in replay.report().splitlines())
    for word, value in wanted.items():
        if found[word] != str(value):
            raise SystemExit(f"self-test: {word} is {found[word]}, and not {value}")


def test_one_message():
    empty, abc = document_hash(""), document_hash("abc")
    line = f'[2,[[0,0,"abc"],"{empty}"],"{BASE}"]'.encode()
    for spelling in (line, b"cp|" + line, line.replace(b"[0,0", b" [ 0 ,\t0").replace(b"abc", b"\\u0061bc"), line + b"\r"):
        expect(replay(line + b"\n" + spelling), height=1, hash=abc, units=3, known=1, kept=2, text='"abc"')
    expect(replay(b""), best=BASE, height=0, hash=empty, known=0, root=f"{BASE} 0", kept=1, overtaken=0, text='""')
    unreadable = [b"", b'[3,[],""]', *(line.replace(b"[0,0", b"[" + zero + b",0") for zero in (b"-0", b"0.0", b"0e0"))]
    expect(replay(b"\n".join(unreadable) + b"\n"), known=0, unreadable=5)
    later = f'[2,[[3,0,"!"],"{abc}"],"{sha256(line.decode())}"]'.encode()
    expect(replay(later), known=1, waiting=1, height=0)
    expect(replay(later + b"\n" + line), height=2, units=4, known=2, waiting=0, kept=3, text='"abc!"')


def test_misfits():
    face = units("\U0001f600")
    for operations, text, wanted in (
        ([(1, 0, "a")], face, "Pair"),
        ([(0, 1, "")], face, "Pair"),
        ([(2, 0, "a")], face, None),
        ([(0, 2, "")], face, None),
        ([(3, 0, "a")], face, "Range"),
        ([(0, 3, "J"), (2, 1, "")], "hello", "Order"),
        ([(9, 0, "q"), (2, 1, "")], "hello", "Order"),
        ([(0, 2, "J"), (2, 1, "")], "hello", None),
        ([(0, 2, "J"), (2, 1, ""), (9, 0, "q")], "hello", "Range"),
        ([(0, 0, "a")], "b" * LONGEST_TEXT, "TooLong"),
    ):
        message = Message(None, tuple(Operation(*operation) for operation in operations), document_hash(text), BASE)
        if misfit(message, text) != wanted:
            raise SystemExit(f"self-test: the misfit of {operations} is {misfit(message, text)}, and not {wanted}")


def test_a_checkpoint_is_sound_at_its_distance():
    pad = Replay()
    checkpoint(pad, insertions(pad, BASE, 48))
    expect(pad, height=48, kept=50)
    pad = Replay()
    checkpoint(pad, insertions(pad, BASE, 49))
    expect(pad, height=50, units=49)
    pad = Replay()
    tip = insertions(pad, BASE, 49)
    hash_before = document_hash(pad.places[tip].text)
    pad.receive(Message(50, (Operation(0, 49, "b" * 49),), hash_before, tip))
    expect(pad, height=49)
    pad = replay(f'[4,[[0,0,""],"{document_hash("")}"],"{BASE}"]'.encode())
    expect(pad, known=1, waiting=0, height=0, kept=2)


def test_the_root_is_the_last_but_one_checkpoint():
    pad = Replay()
    tenth = insertions(pad, BASE, 10)
    thirtieth = insertions(pad, tenth, 20)
    first = checkpoint(pad, insertions(pad, thirtieth, 19))
    last = checkpoint(pad, insertions(pad, first, 49))
    wanted = {"best": last, "height": 100, "units": 98, "root": f"{first} 50", "kept": 51}
    expect(pad, **wanted, known=100, overtaken=0)
    insertion(pad, pad.messages[thirtieth].parent, "b")
    expect(pad, **wanted, known=101, overtaken=0)
    return pad, tenth, last


def test_a_branch_below_the_root_overtakes():
    seen = set()
    for letter in "cdefghijklmnopqrstuvwxyz":
        pad, tenth, last = test_the_root_is_the_last_but_one_checkpoint()
        equal = insertions(pad, tenth, 90, letter)
        insertion(pad, equal, letter)
        lesser = equal < last
        expect(pad, best=last, height=100, overtaken=2 if lesser else 1)
        seen.add(lesser)
        if len(seen) == 2:
            return
    raise SystemExit("self-test: no branch with a lesser name, or none with a greater one")


def test_intervals():
    pad = Replay()
    tip = checkpoint(pad, insertions(pad, BASE, 49), 10)
    tip = sixty = checkpoint(pad, insertions(pad, tip, 9), 10)
    tip = seventy = checkpoint(pad, insertions(pad, tip, 9), 10)
    expect(pad, height=70, units=67, known=70, root=f"{sixty} 60", kept=11)
    tip = checkpoint(pad, insertions(pad, tip, 9))
    expect(pad, height=80, root=f"{seventy} 70")
    ninetieth = insertions(pad, tip, 9)
    checkpoint(pad, ninetieth)
    expect(pad, height=89)
    checkpoint(pad, insertions(pad, ninetieth, 40))
    expect(pad, height=130, root=f"{tip} 80")
    bare = f'[4,[[0,0,""],"{document_hash("")}"],"{BASE}"]'
    if name_of(read(bare.replace(f'{BASE}"', f'{BASE}",50').encode())) != sha256(bare):
        raise SystemExit("self-test: an interval of 50 that is written out changes the name")
    for interval in ("9", "1001", "10.0"):
        expect(replay(bare.replace(f'{BASE}"', f'{BASE}",{interval}').encode()), unreadable=1)


def self_test():
    for name, test in list(globals().items()):
        if name.startswith("test_"):
            test()
    print("self-test: all reports are as worked out by hand")


if __name__ == "__main__":
    if sys.argv[1:] == ["--self-test"]:
        self_test()
    else:
        sys.stdout.buffer.write(replay(sys.stdin.buffer.read()).report().encode())
