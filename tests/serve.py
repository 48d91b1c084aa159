#!/usr/bin/env python3
"""Tries `padnet serve` from outside: clients that speak Netflux over WebSocket, with a hub of this program's own beside them.

usage: tests/serve.py [--quick] [--seconds N] [--only WORD] [--kills N] [--steps N] [COMMAND ..]

It starts the server on 127.0.0.1 over a folder of its own. COMMAND is the program with its first words (`./padnet` if there is none); `serve`, the
address, the folder and the turns are added. For each row it prints what was wanted and what came, if they differ. The status is 1 if any row differs.
One row kills the server by signal 9 while it acknowledges, and starts it again: nothing that was acknowledged may be lost.
"""

import argparse
import hashlib
import json
import os
import pathlib
import random
import re
import resource
import select
import signal
import socket
import struct
import subprocess
import sys
import tempfile
import threading
import time

sys.path.insert(0, os.path.dirname(os.path.abspath(__file__)))
from websocket import CLOSE, PING, PONG, TEXT, frame, request  # noqa: E402

C = "00112233445566778899aabbccddeeff"
LONGEST = 2097152


def compact(value):
    return json.dumps(value, separators=(",", ":"), ensure_ascii=False)


def owner_of(port):
    """The process that listens at a port."""
    for line in pathlib.Path("/proc/net/tcp").read_text().splitlines()[1:]:
        words = line.split()
        if words[1].endswith(":%04X" % port) and words[3] == "0A":
            for link in pathlib.Path("/proc").glob("[0-9]*/fd/*"):
                try:
                    if os.readlink(link) == "socket:[%s]" % words[9]:
                        return int(link.parts[2])
                except OSError:
                    pass
    return None


class Server:
    """The program under test, over a folder."""

    def __init__(self, command, folder, seconds):
        self.command, self.folder, self.seconds = command, folder, seconds
        with socket.socket() as probe:
            probe.bind(("127.0.0.1", 0))
            self.address = probe.getsockname()
        self.process = None
        self.refused = None  # a channel that was refused before a new start

    def words(self, turns="1000000000"):
        return [*self.command, "serve", "%s:%d" % self.address, str(self.folder), turns]

    def start(self):
        # A write past a limit on files shall fail, and not end the process by a signal: `full_disk` sets such a limit.
        ignore = lambda: signal.signal(signal.SIGXFSZ, signal.SIG_IGN)
        self.process = subprocess.Popen(self.words(), stdout=subprocess.PIPE, stderr=subprocess.STDOUT, preexec_fn=ignore)
        began = time.time()
        while time.time() < began + self.seconds:
            try:
                socket.create_connection(self.address).close()
                return time.time() - began
            except OSError:
                if self.process.poll() is not None:
                    raise SystemExit("the server ended: %r" % self.process.stdout.read()[-2000:])
                time.sleep(0.01)
        raise SystemExit("the server does not listen")

    def kill(self):
        """Signal 9, at once."""
        os.kill(owner_of(self.address[1]), signal.SIGKILL)
        self.process.wait()


class Client:
    """A connection, by its texts."""

    def __init__(self, server):
        self.socket = socket.create_connection(server.address)
        self.socket.settimeout(300)
        self.socket.setsockopt(socket.IPPROTO_TCP, socket.TCP_NODELAY, 1)
        self.bytes = bytearray()
        self.socket.sendall(request())
        while b"\r\n\r\n" not in self.bytes:
            self.fill()
        head, _, rest = bytes(self.bytes).partition(b"\r\n\r\n")
        assert head.startswith(b"HTTP/1.1 101 "), head
        self.bytes = bytearray(rest)

    def fill(self):
        piece = self.socket.recv(1 << 20)
        if not piece:
            raise EOFError
        self.bytes += piece

    def take(self, count):
        while len(self.bytes) < count:
            self.fill()
        out = bytes(self.bytes[:count])
        del self.bytes[:count]
        return out

    def say(self, value):
        self.socket.sendall(frame(TEXT, (value if isinstance(value, str) else compact(value)).encode()))

    def hear(self):
        """The next text; None where it was hung up."""
        while True:
            first, size = self.take(2)
            size &= 127
            if size == 126:
                (size,) = struct.unpack(">H", self.take(2))
            elif size == 127:
                (size,) = struct.unpack(">Q", self.take(8))
            payload = self.take(size)
            if first == 128 | TEXT:
                return payload.decode()
            if first == 128 | PING:
                self.socket.sendall(frame(PONG, payload))
            if first == 128 | CLOSE:
                return None

    def ask(self, value, seq=999):
        """Says it and then a ping, and gives all that was heard up to the ping's answer."""
        self.say(value)
        self.say([seq, "PING"])
        out = []
        while True:
            text = self.hear()
            if text == compact([seq, "ACK"]):
                return out
            out.append(text)

    def close(self):
        self.socket.close()


# The hub, by the rules.


def key_of(content):
    """The name of an entry: SHA-256 of the content, less one `cp|` in front."""
    return hashlib.sha256((content[3:] if content.startswith("cp|") else content).encode()).hexdigest()


def is_channel(value):
    return isinstance(value, str) and re.fullmatch("[0-9a-f]{32}", value) is not None


def is_number(value):
    return isinstance(value, int) and not isinstance(value, bool) and 0 <= value < 1 << 32


def parsed(text):
    try:
        value = json.loads(text)
    except ValueError:
        return None
    return value if isinstance(value, list) else None


def asked(content):
    """The question in a message to the keeper."""
    value = parsed(content)
    if value is None or len(value) not in (2, 3) or not all(isinstance(it, (str, int)) for it in value):
        return None
    if not is_channel(value[1]):
        return None
    if value[0] == "GET_HISTORY" and len(value) == 2:
        return value[1], "default"
    if value[0] == "GET_HISTORY" and isinstance(value[2], str) and re.fullmatch("[0-9a-f]{64}", value[2]):
        return value[1], value[2]
    if value[0] == "GET_FULL_HISTORY" and len(value) == 2:
        return value[1], "all"
    if value[0] == "GET_HISTORY_AT" and len(value) == 3 and is_number(value[2]) and value[2] <= 1048576:
        return value[1], value[2]
    return None


class Hub:
    """What each text gives, as lists of (connection, text)."""

    def __init__(self):
        self.joined = {}  # connection: its channels, in order
        self.rooms = {}  # channel: its connections, in order
        self.lists = {}  # channel: (sender, content)
        self.ids = {}
        self.keeper = None

    def closed(self, me):
        out = []
        for channel in self.joined.pop(me):
            self.rooms[channel].remove(me)
            out += [(it, [0, self.ids[me], "LEAVE", channel, "Quit"]) for it in self.rooms[channel]]
        del self.ids[me]
        return out

    def text(self, me, text):
        value = parsed(text)
        seq = value[0] if value and is_number(value[0]) else 0
        error = lambda word, about: [(me, [seq, "ERROR", word, about])]
        if not value or not is_number(value[0]) or len(value) < 2:
            return error("EINVAL", "")
        kind, rest, mine = value[1], value[2:], self.joined[me]
        if kind == "PING" and not rest:
            return [(me, [seq, "ACK"])]
        if kind == "JOIN" and len(rest) == 1 and is_channel(rest[0]):
            channel = rest[0]
            if channel in mine:
                return error("EJOINED", channel)
            if len(mine) == 64:
                return error("EFULL", channel)
            room = self.rooms.setdefault(channel, [])
            tell = lambda who: [0, who, "JOIN", channel]
            out = [(me, [seq, "JACK", channel]), (me, tell(self.keeper))]
            out += [(me, tell(self.ids[it])) for it in room] + [(me, tell(self.ids[me]))]
            out += [(it, tell(self.ids[me])) for it in room]
            room.append(me)
            mine.append(channel)
            return out
        if kind == "LEAVE" and len(rest) in (1, 2) and is_channel(rest[0]) and all(isinstance(it, str) for it in rest):
            channel = rest[0]
            if channel not in mine:
                return error("ENOENT", channel)
            mine.remove(channel)
            self.rooms[channel].remove(me)
            reason = rest[1] if len(rest) == 2 else ""
            return [(me, [seq, "ACK"])] + [(it, [0, self.ids[me], "LEAVE", channel, reason]) for it in self.rooms[channel]]
        if kind == "MSG" and len(rest) == 2 and all(isinstance(it, str) for it in rest):
            return self.message(me, seq, error, *rest)
        return error("EINVAL", "")

    def message(self, me, seq, error, target, content):
        question = asked(content) if target == self.keeper else None
        if target == self.keeper and target not in self.joined[me] and question is None:
            return error("EINVAL", "")
        others = [it for it, name in self.ids.items() if name == target]
        if target not in self.joined[me] and target != self.keeper and not others:
            return error("ENOENT", target)
        if len(content.encode()) > LONGEST:
            return error("ETOOBIG", target)
        told = [0, self.ids[me], "MSG", target, content]
        if target in self.joined[me]:
            self.lists.setdefault(target, []).append((self.ids[me], content))
            return [(me, [seq, "ACK"])] + [(it, told) for it in self.rooms[target] if it != me]
        if target == self.keeper:
            return [(me, [seq, "ACK"])] + [(me, it) for it in self.history(*question)]
        return [(me, [seq, "ACK"]), (others[0], told)]

    def history(self, channel, since):
        entries = self.lists.get(channel, [])
        start = 0
        if since == "default":
            marks = [at for at, it in enumerate(entries) if it[1].startswith("cp|")]
            start = marks[-2] if len(marks) > 1 else 0
        elif isinstance(since, int):
            # Moments are the server's own, so a None stands for each.
            out = [[0, self.keeper, "ENTRY", channel, at, None, *it] for at, it in enumerate(entries) if at >= since]
            return out + [[0, self.keeper, "HISTORY_END", channel, len(entries)]]
        elif since != "all":
            found = [at for at, it in enumerate(entries) if key_of(it[1]) == since]
            if not found:
                return [[0, self.keeper, "HISTORY_UNKNOWN", channel, since]]
            start = found[0]
        out = [[0, self.keeper, "HISTORY", channel, at, *it] for at, it in enumerate(entries) if at >= start]
        return out + [[0, self.keeper, "HISTORY_END", channel, len(entries)]]


ROWS = []


def row(function):
    ROWS.append(function)
    return function


def entered(server):
    """A client, with its identity."""
    client = Client(server)
    ident = json.loads(client.hear())
    assert ident[:3] == [0, "", "IDENT"] and re.fullmatch("[0-9a-f]{32}", ident[3]), ident
    client.id = ident[3]
    return client


def keeper_of(client, channel):
    """Joins a channel, and gives the keeper's identity."""
    for text in client.ask([1, "JOIN", channel]):
        value = json.loads(text)
        if value[0] == 0 and value[2] == "JOIN" and len(value[1]) == 16:
            return value[1]
    raise AssertionError("no keeper")


def texts(values):
    return [compact(it) for it in values]


def fresh():
    return os.urandom(16).hex()


def heard(client, count):
    return [client.hear() for _ in range(count)]


def history(client, keeper, channel, kind="GET_FULL_HISTORY", *more):
    out = [json.loads(it) for it in client.ask([5, "MSG", keeper, compact([kind, channel, *more])])]
    return [it for it in out if it != [5, "ACK"]]


@row
def two_clients(server):
    """The dialogue of two clients in one channel, text by text."""
    c = fresh()
    a, b = entered(server), entered(server)
    got = [int(b.id[:16], 16) - int(a.id[:16], 16)]
    a.say([1, "JOIN", c])
    first = heard(a, 3)
    k = json.loads(first[1])[1]
    got += first
    b.say([1, "JOIN", c])
    got += heard(b, 4) + heard(a, 1)
    b.say([2, "MSG", c, "m"])
    got += heard(b, 1) + heard(a, 1)
    for text in ([3, "JOIN", c], [4, "MSG", "nobody", "m"], "hello", [6, "NOPE"], [7, "PING"]):
        b.say(text)
        got += heard(b, 1)
    b.say([8, "MSG", k, compact(["GET_HISTORY", c])])
    got += heard(b, 3)
    b.say([9, "MSG", k, compact(["GET"])])
    got += heard(b, 1)
    a.close()
    got += heard(b, 1)
    wanted = [1] + texts(
        [[1, "JACK", c], [0, k, "JOIN", c], [0, a.id, "JOIN", c]]
        + [[1, "JACK", c], [0, k, "JOIN", c], [0, a.id, "JOIN", c], [0, b.id, "JOIN", c], [0, b.id, "JOIN", c]]
        + [[2, "ACK"], [0, b.id, "MSG", c, "m"]]
        + [[3, "ERROR", "EJOINED", c], [4, "ERROR", "ENOENT", "nobody"], [0, "ERROR", "EINVAL", ""], [6, "ERROR", "EINVAL", ""], [7, "ACK"]]
        + [[8, "ACK"], [0, k, "HISTORY", c, 0, b.id, "m"], [0, k, "HISTORY_END", c, 1], [9, "ERROR", "EINVAL", ""], [0, a.id, "LEAVE", c, "Quit"]]
    )
    return wanted, got


@row
def histories(server):
    """A default history starts at the last checkpoint but one; one from a key at its first entry."""
    c = fresh()
    a = entered(server)
    k = keeper_of(a, c)
    got, wanted = [], []

    def starts(kind, *more):
        out = history(a, k, c, kind, *more)
        return [it[4] if it[2] == "HISTORY" else it[2:] for it in out]

    got.append(starts("GET_HISTORY"))
    wanted.append([["HISTORY_END", c, 0]])
    for content in ("a", "cp|abc", "b"):
        a.ask([2, "MSG", c, content])
    got.append(starts("GET_HISTORY"))
    wanted.append([0, 1, 2, ["HISTORY_END", c, 3]])
    for content in ("cp|y", "a"):
        a.ask([2, "MSG", c, content])
    end = ["HISTORY_END", c, 5]
    sha = lambda text: hashlib.sha256(text.encode()).hexdigest()
    got += [starts("GET_HISTORY"), starts("GET_HISTORY", sha("a")), starts("GET_HISTORY", sha("abc")), starts("GET_HISTORY", "0" * 64)]
    wanted += [[1, 2, 3, 4, end], [0, 1, 2, 3, 4, end], [1, 2, 3, 4, end], [["HISTORY_UNKNOWN", c, "0" * 64]]]
    out = history(a, k, c, "GET_HISTORY_AT", 3)
    got.append([it[:5] + it[6:] if it[2] == "ENTRY" else it for it in out])
    wanted.append([[0, k, "ENTRY", c, 3, a.id, "cp|y"], [0, k, "ENTRY", c, 4, a.id, "a"], [0, k] + end])
    got.append([abs(it[5] - time.time()) < 100 for it in out[:-1]])
    wanted.append([True, True])
    got.append(history(a, k, c, "GET_HISTORY_AT", 9))
    wanted.append([[0, k] + end])
    return wanted, got


@row
def limits(server):
    """The longest content, and one byte more: to a channel, to a connection, to the keeper; the 65th channel of a connection."""
    c = fresh()
    a, b = entered(server), entered(server)
    k = keeper_of(a, c)
    keeper_of(b, c)
    a.ask([9, "PING"])
    got, wanted = [], []
    for size in (LONGEST, LONGEST + 1):
        for target in (c, b.id, k):
            content = "x" * size if target != k else compact(["GET_HISTORY", c]) + " " * (size - 50)
            content += " " * (size - len(content))
            got.append([it if len(it) < 200 else len(it) for it in a.ask([5, "MSG", target, content])])
            if size > LONGEST:
                wanted.append(texts([[5, "ERROR", "ETOOBIG", target]]))
            elif target == k:
                end = compact([0, k, "HISTORY_END", c, 1])
                wanted.append([compact([5, "ACK"]), len(compact([0, k, "HISTORY", c, 0, a.id, "x" * LONGEST])), end])
            else:
                wanted.append(texts([[5, "ACK"]]))
    got.append([len(json.loads(it)[4]) for it in heard(b, 2)])
    wanted.append([LONGEST, LONGEST])
    for _ in range(63):
        a.ask([1, "JOIN", fresh()])
    last = fresh()
    got.append(a.ask([1, "JOIN", last]))
    wanted.append(texts([[1, "ERROR", "EFULL", last]]))
    return wanted, got


@row
def connections(server):
    """1,024 connections are taken in, and the next one is told so and hung up."""
    many = [entered(server) for _ in range(1024)]
    more = Client(server)
    got = [more.hear(), more.hear()]
    many[5].close()
    many[6].ask([1, "PING"])
    again = entered(server)
    got.append(int(again.id[:16], 16) - int(many[-1].id[:16], 16))
    for client in [*many, again]:
        client.close()
    time.sleep(0.5)
    return [compact([0, "ERROR", "EFULL", ""]), None, 1], got


@row
def files(server):
    """A first message to a channel of the older form moves it; the bytes of both files."""
    c = fresh()
    old = b"PADLOG1\n\x01\x00\x00\x00\x21" + b"0000000000000001e56a5d4028bd8653m\x00"
    (server.folder / (c + ".padlog")).write_bytes(old)
    a = entered(server)
    k = keeper_of(a, c)
    sender = "0000000000000001e56a5d4028bd8653"
    got = [history(a, k, c), (server.folder / (c + ".padlog2")).exists()]
    wanted = [[[0, k, "HISTORY", c, 0, sender, "m"], [0, k, "HISTORY_END", c, 1]], False]
    got.append(a.ask([2, "MSG", c, "n"]))
    wanted.append(texts([[2, "ACK"]]))
    new = (server.folder / (c + ".padlog2")).read_bytes()
    moment = new[64:72]
    got += [(server.folder / (c + ".padlog")).read_bytes() == old, len(new), new]
    moved = b"\x01\x00\x00\x00\x29" + bytes(8) + sender.encode() + b"m"
    wanted += [True, 106, b"PADLOG2\n" + moved + b"\x01\x00\x00\x00\x00" + b"\x01\x00\x00\x00\x29" + moment + a.id.encode() + b"n" + b"\x00"]
    got.append(abs(int.from_bytes(moment, "big") - time.time()) < 100)
    wanted.append(True)
    return wanted, got


@row
def full_disk(server):
    """A write that finds no room is told its sender alone, and nothing that was acknowledged is lost; once there is room, messages are acknowledged again."""
    c = fresh()
    a, b = entered(server), entered(server)
    k = keeper_of(a, c)
    keeper_of(b, c)
    a.ask([9, "PING"])
    path = server.folder / (c + ".padlog2")
    got = [a.ask([1, "MSG", c, "first"])]
    limit = lambda size: resource.prlimit(owner_of(server.address[1]), resource.RLIMIT_FSIZE, (size, resource.RLIM_INFINITY))
    size = path.stat().st_size
    for room in (0, 1, 4, 500):  # none, in the head of the entry, in its content
        limit(size + room)
        got.append(a.ask([2, "MSG", c, "y" * 2000]))
    got.append(a.ask([3, "MSG", c, "short"]))
    limit(resource.RLIM_INFINITY)
    got.append(a.ask([4, "MSG", c, "z" * 2000]))
    got.append(b.ask([5, "PING"]))
    refused, told = texts([[2, "ERROR", "ESTORE", c]]), lambda content: compact([0, a.id, "MSG", c, content])
    wanted = [texts([[1, "ACK"]])] + [refused] * 4 + [texts([[3, "ACK"]]), texts([[4, "ACK"]])]
    wanted.append([told("first"), told("short"), told("z" * 2000), compact([5, "ACK"])])
    kept = [(a.id, "first"), (a.id, "short"), (a.id, "z" * 2000)]
    got.append([(it[5], it[6]) for it in history(a, k, c)[:-1]])
    server.kill()
    server.start()
    a = entered(server)
    got.append([(it[5], it[6]) for it in history(a, keeper_of(a, c), c)[:-1]])
    wanted += [kept, kept]
    return wanted, got


@row
def damages(server):
    """A damaged channel answers so and keeps its bytes; one whose file could not be synced is refused until the server is started again."""
    c, d = fresh(), fresh()
    path = server.folder / (c + ".padlog2")
    path.write_bytes(b"PADLOG1\nxx")
    a = entered(server)
    k = keeper_of(a, c)
    keeper_of(a, d)
    got = [a.ask([2, "MSG", c, "n"]), a.ask([3, "MSG", k, compact(["GET_HISTORY", c])]), path.read_bytes()]
    wanted = [texts([[2, "ERROR", "EDAMAGED", c]]), texts([[3, "ERROR", "EDAMAGED", k]]), b"PADLOG1\nxx"]
    (server.folder / (d + ".padlog2")).mkdir()
    got += [a.ask([2, "MSG", d, "n"]), a.ask([3, "MSG", k, compact(["GET_HISTORY", d])])]
    wanted += [texts([[2, "ERROR", "ESTORE", d]]), texts([[3, "ERROR", "ESTORE", k]])]
    (server.folder / (d + ".padlog2")).rmdir()
    got.append(a.ask([2, "MSG", d, "n"]))
    wanted.append(texts([[2, "ERROR", "ESTORE", d]]))
    server.refused = d
    return wanted, got


@row
def copies(server):
    """A copy of a channel's file that is read from front to back while messages come has all that was acknowledged before it began, and then some of the next."""
    c = fresh()
    writer = entered(server)
    keeper_of(writer, c)
    sent, acked, last = [], [0], [False]

    def write():
        while not last[0]:
            sent.append("%d" % len(sent) + "x" * random.randrange(3000))
            writer.say([1, "MSG", c, sent[-1]])
            assert writer.hear() == compact([1, "ACK"])
            acked[0] = len(sent)

    thread = threading.Thread(target=write)
    thread.start()
    got = []
    with tempfile.TemporaryDirectory() as folder:
        while len(got) < 20:
            before = acked[0]
            with open(pathlib.Path(folder) / (c + ".padlog2"), "wb") as copy:
                if before:
                    with open(server.folder / (c + ".padlog2"), "rb", buffering=0) as log:
                        while piece := log.read(4096):
                            copy.write(piece)
            done = subprocess.run([*server.command, "log", folder, c], stdout=subprocess.PIPE, stderr=subprocess.DEVNULL)
            lines = done.stdout.decode().splitlines()
            found = [json.loads(it.split(" ", 3)[3]) for it in lines[:-1]]
            got.append((done.returncode, lines[-1:], len(found) >= before, found == sent[: len(found)]))
            got[-1] = got[-1] == (0, ["entries %d" % len(found)], True, True) or got[-1]
    last[0] = True
    thread.join()
    return [True] * 20 + [True], got + [acked[0] > 0]


def dialogue(server, steps, source):
    """Random texts of some clients, each compared with the hub's."""
    hub, clients, number = Hub(), {}, 0
    channels = [fresh() for _ in range(3)]
    differ = []

    def expect(outs, step):
        wanted = {}
        for to, value in outs:
            wanted.setdefault(to, []).append(value)
        for to, values in wanted.items():
            for value in values:
                got = json.loads(clients[to].hear())
                if len(value) == 8 and value[2] == "ENTRY" and len(got) == 8:
                    got[5] = None
                if got != value:
                    differ.append((step, value, got))

    for at in range(steps):
        if len(clients) < 2 or (len(clients) < 6 and source.random() < 0.03):
            client = entered(server)
            number += 1
            clients[number], hub.ids[number], hub.joined[number] = client, client.id, []
            if hub.keeper is None:
                channel = fresh()
                hub.keeper = keeper_of(client, channel)
                client.ask([1, "LEAVE", channel])
            continue
        me = source.choice(list(clients))
        if source.random() < 0.01:
            clients.pop(me).close()
            expect(hub.closed(me), (at, "close"))
            continue
        text = a_text(source, hub, me, channels)
        clients[me].say(text)
        expect(hub.text(me, text), (at, text))
        if differ:
            break
    for me, client in clients.items():
        extra = client.ask([998, "PING"], 997)
        if extra != [compact([998, "ACK"])]:
            differ.append(("more", me, extra))
    for client in clients.values():
        client.close()
    return differ


def a_text(source, hub, me, channels):
    seq = source.choice([0, 1, 7, 4294967295])
    channel = source.choice(channels)
    content = source.choice(["", "a", "b", "cp|a", "cp|b", "cp|cp|a", 'q"\\\n\t\u20ac\U0001f600\u0001\u007f', "x" * source.randrange(300)])
    key = source.choice([key_of("a"), key_of("b"), key_of("cp|a"), "0" * 64])
    question = source.choice(
        [["GET_HISTORY", channel], ["GET_FULL_HISTORY", channel], ["GET_HISTORY", channel, key], ["GET_HISTORY_AT", channel, source.randrange(20)]]
        + [["GET_HISTORY_AT", channel, 1048577], ["GET"], ["GET_HISTORY", channel[:31]], ["GET_HISTORY", channel, "A" * 64], {}, ["GET_FULL_HISTORY", channel, 1]]
    )
    there = source.choice(list(hub.ids.values()))
    kind = source.randrange(12)
    if kind < 2:
        return compact([seq, "JOIN", channel])
    if kind == 2:
        return compact([seq, "LEAVE", channel] + source.choice([[], ["bye"], [""]]))
    if kind < 7:
        return compact([seq, "MSG", channel, content])
    if kind < 10:
        return compact([seq, "MSG", hub.keeper, compact(question)])
    if kind == 10:
        return compact([seq, "MSG", source.choice([there, hub.ids[me], "nobody", ""]), content])
    return source.choice(
        ["", "[", "1", "[]", "[1]", '[1,"PING"]', '[1,"PING",2]', "[-1,\"PING\"]", '[1.0,"PING"]', '[4294967296,"PING"]', '["1","PING"]']
        + [' [ 3 , "PING" ] ', '[1,"JOIN","' + channel.upper() + '"]', '[2,"JOIN"]', '[5,"MSG","' + channel + '"]', '[6,"MSG","a",1]', '[8,"LEAVE","' + channel + '",1]']
        + ['[9,"\\u0050ING"]', "{}", "null", '[3,"ping"]', '[true,"PING"]', '[7,"PING"] x']
    )


@row
def dialogues(server):
    """Random dialogues of some clients, compared text by text with the hub of this program."""
    source = random.Random(server.seed)
    return [], dialogue(server, server.steps, source)


@row
def killed(server):
    """Killed by signal 9 while it acknowledges, and started again: each list is what was sent, up to the last that was acknowledged or one more."""
    wanted, got = [], []
    channels = [fresh() for _ in range(3)]
    sent = {c: [] for c in channels}
    acked = {c: 0 for c in channels}
    for turn in range(server.kills):
        writers = []
        for c in channels:
            writer = entered(server)
            keeper_of(writer, c)
            writers.append((c, writer))
        until = time.time() + 0.3 + random.random()
        end = False
        for c, writer in writers:
            sent[c].append((writer.id, "%d" % len(sent[c])))
            writer.say([1, "MSG", c, sent[c][-1][1]])
        while not end:
            ready, _, _ = select.select([w.socket for _, w in writers], [], [], 0.05)
            for c, writer in writers:
                if writer.socket not in ready:
                    continue
                assert writer.hear() == compact([1, "ACK"])
                acked[c] = len(sent[c])
                sent[c].append((writer.id, "%d" % len(sent[c]) + "y" * random.randrange(2000)))
                writer.say([1, "MSG", c, sent[c][-1][1]])
            end = time.time() > until
        server.kill()
        for c, writer in writers:  # acknowledgements that were on their way
            try:
                while writer.hear() == compact([1, "ACK"]):
                    acked[c] = len(sent[c])
            except (EOFError, OSError):
                pass
            writer.close()
        server.start()
        reader = entered(server)
        keeper = keeper_of(reader, fresh())
        if server.refused:
            keeper_of(reader, server.refused)
            got.append(reader.ask([2, "MSG", server.refused, "n"]))
            wanted.append(texts([[2, "ACK"]]))
        for c in channels:
            told = [(it[5], it[6]) for it in history(reader, keeper, c)[:-1]]
            wanted.append((c, turn, True, True))
            got.append((c, turn, acked[c] <= len(told), told == sent[c][: len(told)]))
            del sent[c][len(told) :]
            acked[c] = len(told)
        reader.close()
    print("   acknowledged before a kill and found after it:", sum(acked.values()))
    wanted.append(True)
    got.append(sum(acked.values()) > 0)
    return wanted, got


@row
def many_channels(server):
    """4,096 channels are loaded, and one more is refused; it comes last, since they stay loaded."""
    a = entered(server)
    k = keeper_of(a, fresh())
    last = None
    for at in range(4200):
        c = fresh()
        out = a.ask([3, "MSG", k, compact(["GET_HISTORY", c])])
        if out != texts([[3, "ACK"], [0, k, "HISTORY_END", c, 0]]):
            last = out
            break
    before = a.ask([3, "MSG", k, compact(["GET_HISTORY", C])])
    return [texts([[3, "ERROR", "EFULL", k]]), texts([[3, "ERROR", "EFULL", k]])], [last, before]


def endings(server):
    """How it ends: the address in use, a folder that is a file, or that cannot be made, words that are no address, the turns."""
    run = lambda words: subprocess.run(words, stdout=subprocess.PIPE, stderr=subprocess.DEVNULL)
    got, wanted = [], []
    done = run(server.words())
    got.append((done.returncode, done.stdout))
    wanted.append((6, b"link fault\n"))
    other = Server(server.command, server.folder, server.seconds)
    (server.folder / "a file").write_bytes(b"x")
    for folder in (server.folder / "a file", pathlib.Path("/proc/none")):
        other.folder = folder
        done = run(other.words())
        got.append((done.returncode, done.stdout))
        wanted.append((5, b"store fault\n"))
    for address in ("127.0.0.1", "127.0.0.1:x", "localhost:80", "127.0.0.1:65536"):
        done = run([*server.command, "serve", address, str(server.folder), "1"])
        got.append((done.returncode, done.stdout))
        wanted.append((6, b"link fault\n"))
    other.folder = server.folder
    done = run(other.words("3"))
    got.append((done.returncode, done.stdout))
    wanted.append((0, b"turns 3\n"))
    for words in (["serve"], ["serve", "", "x", "1"], ["serve", "a", "", "1"], ["serve", "a", "x", "0"], ["serve", "a", "x", "1000000001"], ["serve", "a", "x", "01"]):
        done = run([*server.command, *words])
        got.append((done.returncode, done.stdout))
        wanted.append((2, b"usage\n"))
    return wanted, got


def main():
    parser = argparse.ArgumentParser(description=__doc__, formatter_class=argparse.RawDescriptionHelpFormatter)
    parser.add_argument("--seconds", type=float, default=20, help="how long to wait until it listens")
    parser.add_argument("--only", default="")
    parser.add_argument("--kills", type=int, default=5)
    parser.add_argument("--steps", type=int, default=3000)
    parser.add_argument("--seed", type=int, default=random.randrange(1 << 30))
    parser.add_argument("--quick", action="store_true", help="300 steps, one kill, and no row of 4,097 channels")
    parser.add_argument("--no-endings", action="store_true", help="leave out the rows that start further servers")
    parser.add_argument("command", nargs="*")
    args = parser.parse_args()
    if args.quick:
        args.steps, args.kills = min(args.steps, 300), min(args.kills, 1)
    top = pathlib.Path(__file__).resolve().parent.parent
    differ = 0
    with tempfile.TemporaryDirectory() as folder:
        server = Server(args.command or [str(top / "padnet")], pathlib.Path(folder) / "pads", args.seconds)
        server.kills, server.steps, server.seed = args.kills, args.steps, args.seed
        print("listens after %.2f seconds; seed %d" % (server.start(), args.seed), flush=True)
        rows = ROWS + ([] if args.no_endings else [endings])
        try:
            for function in rows:
                if args.only not in function.__name__ or (args.quick and function is many_channels):
                    continue
                began = time.time()
                wanted, got = function(server)
                same = wanted == got
                differ += not same
                print("%s %s (%.1f s)" % ("same" if same else "DIFFERS", function.__name__, time.time() - began), flush=True)
                if not same:
                    pairs = [(w, g) for w, g in zip(wanted, got) if w != g] or [(len(wanted), len(got))]
                    pairs += [("nothing more", it) for it in got[len(wanted) :]]
                    for w, g in pairs[:5]:
                        print("   wanted", repr(w)[:600], "\n   got   ", repr(g)[:600], flush=True)
        finally:
            server.kill()
    print("all agree" if not differ else "%d rows differ" % differ)
    return 1 if differ else 0


if __name__ == "__main__":
    sys.exit(main())
