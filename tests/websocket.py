#!/usr/bin/env python3
"""Tries the WebSocket edge from outside: peers that keep to RFC 6455, and peers that do not.

usage: tests/websocket.py [--program PATH] [--only WORD] [--long] [--large]

It starts `ws_echo`, a small program over a port of `ws_edge`, on 127.0.0.1, and is its peers, with sockets and frames written by hand. For each row
it prints what was wanted and what came, and then whether they agree. Rows on memory and on processor time read /proc. The
status is 1 if any row differs. `--only` tries the rows whose name has the word in it, long ones too; `--long` adds those that send many
megabytes or measure for seconds, and `--large` the one that takes 3 GB of memory. Behind each row stands how long it took, how much
processor time of the program, and the most memory that the program ever had.

Build the program first: `cd crates/ws_echo && rt run`.
"""

import argparse
import os
import resource
import socket
import struct
import subprocess
import sys
import tempfile
import threading
import time

TOP = os.path.dirname(os.path.dirname(os.path.abspath(__file__)))
MESSAGE_BYTES = 16 << 20
TEXT, BINARY, CLOSE, PING, PONG = 1, 2, 8, 9, 10
KEY = b"dGhlIHNhbXBsZSBub25jZQ=="
ACCEPT = b"s3pPLMBiTxaQ9kYGzzhZRbK+xOo="


class Echo:
    """The program under test."""

    def __init__(self, program, descriptors=20000):
        self.program = program
        self.descriptors = descriptors
        with socket.socket() as probe:
            probe.bind(("127.0.0.1", 0))
            self.address = probe.getsockname()
        self.log = tempfile.TemporaryFile()
        self.start()

    def word(self):
        return "%s:%d" % self.address

    def start(self):
        most = min(self.descriptors, resource.getrlimit(resource.RLIMIT_NOFILE)[1])
        self.process = subprocess.Popen(
            [self.program, "serve", self.word(), "1000000000"],
            stdout=self.log,
            stderr=self.log,
            preexec_fn=lambda: resource.setrlimit(resource.RLIMIT_NOFILE, (most, most)),
        )
        for _ in range(200):
            try:
                Peer(self).socket.close()
                return
            except OSError:
                time.sleep(0.05)
        raise SystemExit("the program does not listen")

    def stop(self):
        self.process.kill()
        self.process.wait()

    def megabytes(self, what="VmRSS"):
        """How much memory it has; by `VmHWM`, the most that it ever had."""
        with open("/proc/%d/status" % self.process.pid) as status:
            return next(int(line.split()[1]) >> 10 for line in status if line.startswith(what))

    def ticks(self):
        """How much processor time it took, in hundredths of a second."""
        with open("/proc/%d/stat" % self.process.pid) as status:
            words = status.read().rsplit(")", 1)[1].split()
        return int(words[11]) + int(words[12])


class Peer:
    """One connection."""

    def __init__(self, echo, buffer=None):
        self.socket = socket.socket()
        if buffer:
            self.socket.setsockopt(socket.SOL_SOCKET, socket.SO_RCVBUF, buffer)
        self.socket.settimeout(30)
        self.socket.connect(echo.address)
        self.socket.setsockopt(socket.IPPROTO_TCP, socket.TCP_NODELAY, 1)

    def send(self, data):
        self.socket.sendall(data)

    def bytes(self, count):
        out = bytearray()
        while len(out) < count:
            piece = self.socket.recv(min(1 << 20, count - len(out)))
            if not piece:
                raise EOFError
            out += piece
        return bytes(out)

    def head(self):
        """The lines with which the handshake is answered."""
        got = b""
        while not got.endswith(b"\r\n\r\n"):
            got += self.bytes(1)
        return got.split(b"\r\n")

    def frame(self):
        first, second = self.bytes(2)
        length = second & 127
        if length == 126:
            (length,) = struct.unpack(">H", self.bytes(2))
        elif length == 127:
            (length,) = struct.unpack(">Q", self.bytes(8))
        return first, second & 128, self.bytes(length)

    def message(self):
        """The opcode and the payload of a frame, which is whole and not masked."""
        first, mask, payload = self.frame()
        if first & 112 or not first & 128 or mask:
            return "a frame that no server sends", payload
        return first & 15, payload

    def rest(self):
        """What comes until the end: a close is its number, the end is `end`."""
        out = []
        try:
            while True:
                kind, payload = self.message()
                if kind == CLOSE:
                    out.append(("close", struct.unpack(">H", payload[:2])[0] if payload else None))
                else:
                    out.append((kind, len(payload)))
        except EOFError:
            return out + ["end"]
        except ConnectionError:
            return out + ["reset"]
        except socket.timeout:
            return out + ["nothing more"]


def request(path="/", **fields):
    """The request of a client (RFC 6455, section 1.2)."""
    lines = {"Host": "x", "Upgrade": "websocket", "Connection": "Upgrade", "Sec-WebSocket-Key": KEY.decode(), "Sec-WebSocket-Version": "13"}
    lines.update((name.replace("_", "-"), value) for name, value in fields.items())
    text = "GET %s HTTP/1.1\r\n" % path + "".join("%s: %s\r\n" % line for line in lines.items() if line[1] is not None)
    return text.encode() + b"\r\n"


def frame(kind, payload=b"", fin=True, mask=True, reserved=0, length=None):
    """A frame of a client, or one that no client sends. `length` is the count of bytes that its length takes."""
    count = len(payload)
    if length is None:
        length = 0 if count < 126 else 2 if count < 65536 else 8
    number = {0: bytes([count & 127]), 2: b"\x7e" + struct.pack(">H", count & 65535), 8: b"\x7f" + struct.pack(">Q", count)}[length]
    out = bytes([(128 if fin else 0) | reserved | kind, number[0] | (128 if mask else 0)]) + number[1:]
    if mask:
        key = os.urandom(4)
        out += key
        if count:
            keys = (key * (count // 4 + 1))[:count]
            payload = (int.from_bytes(payload, "big") ^ int.from_bytes(keys, "big")).to_bytes(count, "big")
    return out + payload


def opened(echo, buffer=None):
    peer = Peer(echo, buffer)
    peer.send(request())
    assert peer.head()[0].endswith(b"101 Switching Protocols")
    return peer


def refused(echo, *frames):
    """What comes after frames that are not allowed."""
    peer = opened(echo)
    peer.send(b"".join(frames))
    out = peer.rest()
    # What it closes first may be answered by a reset, if not all was read.
    return out[:1] if out[1:] in (["end"], ["reset"]) else out


def echoed(echo, text=b"hello"):
    peer = opened(echo)
    peer.send(frame(TEXT, text))
    out = peer.message()
    peer.socket.close()
    return out


ROWS = []


QUICK, LONG, LARGE = 0, 1, 2


def row(name, wanted, size=QUICK):
    def add(function):
        ROWS.append((name, wanted, function, size))
        return function

    return add


def is_in(low, high):
    """Wanted: a number in this range."""
    test = lambda value: isinstance(value, (int, float)) and low <= value <= high
    test.words = "%s to %s" % (low, high)
    return test


# Handshakes.


@row("the answer to the request of RFC 6455", [b"HTTP/1.1 101 Switching Protocols", ACCEPT])
def handshake(echo):
    peer = Peer(echo)
    peer.send(request())
    lines = peer.head()
    return [lines[0], next(line.split(b": ")[1] for line in lines if line.lower().startswith(b"sec-websocket-accept"))]


@row("a handshake byte by byte", b"HTTP/1.1 101 Switching Protocols")
def handshake_bytes(echo):
    peer = Peer(echo)
    for byte in request():
        peer.send(bytes([byte]))
        time.sleep(0.002)
    return peer.head()[0]


@row("a frame in one packet with the request", (TEXT, b"early"))
def early(echo):
    peer = Peer(echo)
    peer.send(request() + frame(TEXT, b"early"))
    peer.head()
    return peer.message()


@row("requests as browsers and other libraries send them", [b"101"] * 5 + [False])
def other_requests(echo):
    fields = [{"Connection": "keep-alive, Upgrade"}, {"Upgrade": "WebSocket"}, {"Connection": "upgrade"}]
    many = {"X-%d" % at: "x" for at in range(100)}
    offers = {"Sec_WebSocket_Extensions": "permessage-deflate; client_max_window_bits", "Sec_WebSocket_Protocol": "a, b", "Origin": "http://x"}
    out, lines = [], []
    for each in fields + [many, offers]:
        peer = Peer(echo)
        peer.send(request("/pads?x=1", **each))
        lines = peer.head()
        out.append(lines[0].split(b" ")[1])
    # No extension and no protocol is chosen.
    return out + [any(line.lower().startswith((b"sec-websocket-extensions", b"sec-websocket-protocol")) for line in lines)]


def unanswered(echo, data):
    peer = Peer(echo)
    try:
        peer.send(data)
        return peer.socket.recv(100)
    except ConnectionError:
        return b""


@row("requests that open no WebSocket", [b""] * 7)
def no_upgrade(echo):
    others = [b"GET / HTTP/1.1\r\nHost: x\r\n\r\n", request().replace(b"GET", b"POST"), request().replace(b"1.1", b"1.0")]
    fields = [{"Upgrade": "h2c"}, {"Connection": "close"}, {"Sec_WebSocket_Key": "short"}, {"Sec_WebSocket_Version": "12"}]
    return [unanswered(echo, data) for data in others + [request(**each) for each in fields]]


@row("bytes that are no request", [b"", b""])
def no_request(echo):
    return [unanswered(echo, b"\x16\x03\x01" + os.urandom(300)), unanswered(echo, b"hello\r\n\r\n")]


@row("a request of more than 32 KiB", b"")
def long_request(echo):
    return unanswered(echo, request("/" + "a" * (33 << 10)))


@row("a request of 200 fields", b"")
def many_fields(echo):
    return unanswered(echo, request(**{"X-%d" % at: "x" for at in range(200)}))


@row("a request that ends in its midst", [b"", (TEXT, b"hello")])
def half_request(echo):
    peer = Peer(echo)
    peer.send(request()[:40])
    peer.socket.shutdown(socket.SHUT_WR)
    return [peer.socket.recv(100), echoed(echo)]


# Messages.


@row("texts of many lengths", "all came back")
def lengths(echo):
    peer = opened(echo)
    for count in [0, 1, 125, 126, 127, 65535, 65536, 1000000]:
        text = os.urandom(count // 2 + 1).hex().encode()[:count]
        peer.send(frame(TEXT, text))
        if peer.message() != (TEXT, text):
            return "not that of %d bytes" % count
    return "all came back"


@row("fragments of every size, with a ping between", "all came back")
def fragments(echo):
    peer = opened(echo)
    text = "häßlich \U0001f600".encode()
    for size in range(1, len(text) + 1):
        pieces = [text[at : at + size] for at in range(0, len(text), size)] + [b""]
        for at, piece in enumerate(pieces):
            last = at + 1 == len(pieces)
            peer.send(frame(0 if at else TEXT, piece, fin=last) + (b"" if last else frame(PING, b"p%d" % at)))
        for at in range(len(pieces) - 1):
            if peer.message() != (PONG, b"p%d" % at):
                return "no pong %d at fragments of %d" % (at, size)
        if peer.message() != (TEXT, text):
            return "not the text in fragments of %d" % size
    return "all came back"


@row("a frame byte by byte", (TEXT, "häßlich".encode()))
def frame_bytes(echo):
    peer = opened(echo)
    for byte in frame(TEXT, "häßlich".encode()):
        peer.send(bytes([byte]))
        time.sleep(0.002)
    return peer.message()


@row("a ping, a pong that was not asked for", [(PONG, b"abc"), (TEXT, b"x")])
def pings(echo):
    peer = opened(echo)
    peer.send(frame(PING, b"abc") + frame(PONG, b"def") + frame(TEXT, b"x"))
    return [peer.message(), peer.message()]


@row("16 MiB", [(TEXT, MESSAGE_BYTES)] * 2, LONG)
def longest(echo):
    peer = opened(echo)
    peer.send(frame(TEXT, b"a" * MESSAGE_BYTES))
    kind, text = peer.message()
    part = MESSAGE_BYTES // 7
    for at in range(7):
        peer.send(frame(0 if at else TEXT, b"b" * (part if at < 6 else MESSAGE_BYTES - 6 * part), fin=at == 6))
    other, again = peer.message()
    return [(kind, len(text)), (other, len(again))]


@row("16 MiB and one byte", [[("close", 1009)]] * 2, LONG)
def too_long(echo):
    part = MESSAGE_BYTES // 7
    pieces = [frame(0 if at else TEXT, b"b" * (part if at < 6 else MESSAGE_BYTES + 1 - 6 * part), fin=at == 6) for at in range(7)]
    return [refused(echo, frame(TEXT, b"a" * (MESSAGE_BYTES + 1))), refused(echo, *pieces)]


@row("a frame in two pieces, parted at each place", "all came back")
def parted(echo):
    peer = opened(echo)
    for at in range(1, len(frame(TEXT, b"x" * 130))):
        data = frame(TEXT, b"x" * 130)
        peer.send(data[:at])
        time.sleep(0.001)
        peer.send(data[at:])
        if peer.message() != (TEXT, b"x" * 130):
            return "not the text parted at %d" % at
    return "all came back"


# What is not allowed.


@row("a binary message", [[("close", 1003)]] * 2)
def binary(echo):
    return [refused(echo, frame(BINARY, b"xx")), refused(echo, frame(BINARY, b"x", fin=False), frame(0, b"x"))]


@row("frames that are not masked", [[("close", 1002)]] * 2)
def unmasked(echo):
    return [refused(echo, frame(TEXT, b"xx", mask=False)), refused(echo, frame(PING, mask=False))]


@row("wrong opcodes", [[("close", 1002)]] * 10)
def opcodes(echo):
    return [refused(echo, frame(kind, b"xx")) for kind in [3, 4, 5, 6, 7, 11, 12, 13, 14, 15]]


@row("reserved bits", [[("close", 1002)]] * 3)
def reserved(echo):
    return [refused(echo, frame(TEXT, b"xx", reserved=bit)) for bit in (64, 32, 16)]


@row("wrong UTF-8", [[("close", 1007)]] * 7)
def wrong_text(echo):
    wrong = [b"\xff\xfe", b"\xc0\x80", b"\xed\xa0\x80", b"\xf4\x90\x80\x80", b"a\xc3"]
    parts = [(b"a", b"\x80", False), (b"\xf0\x9f", b"\x98", True)]
    out = [refused(echo, frame(TEXT, text)) for text in wrong]
    return out + [refused(echo, frame(TEXT, one, fin=False), frame(0, two, fin=fin)) for one, two, fin in parts]


@row("fragments out of order", [[("close", 1002)]] * 2)
def disorder(echo):
    return [refused(echo, frame(0, b"a")), refused(echo, frame(TEXT, b"a", fin=False), frame(TEXT, b"b"))]


@row("control frames that are long or in fragments", [[("close", 1002)]] * 2)
def control(echo):
    return [refused(echo, frame(PING, b"a" * 126)), refused(echo, frame(PING, b"a", fin=False))]


@row("a length that is not in its shortest form", [[("close", 1002)]] * 2)
def long_length(echo):
    return [refused(echo, frame(TEXT, b"a", length=2)), refused(echo, frame(TEXT, b"a", length=8))]


@row("a text, and then a frame that is not allowed", [(TEXT, 5), ("close", 1002), "end"])
def text_first(echo):
    peer = opened(echo)
    peer.send(frame(TEXT, b"hello") + frame(3))
    return peer.rest()


@row("lengths that no frame may have", [[("close", 1002)], [("close", 1009)]])
def no_length(echo):
    return [refused(echo, b"\x81\xff" + struct.pack(">Q", count) + b"abcd") for count in (1 << 63, 1 << 40)]


# Ends.


@row("a close", [[("close", 1000), "end"], [("close", None), "end"], [("close", 1001), "end"]])
def closes(echo):
    out = []
    for payload in [b"\x03\xe8", b"", b"\x03\xe9bye"]:
        peer = opened(echo)
        peer.send(frame(CLOSE, payload))
        out.append(peer.rest())
    return out


@row("closes that are not allowed: half a code, codes that none may send, a reason that is no UTF-8", [[("close", 1002)]] * 7 + [[("close", 1007)]])
def wrong_closes(echo):
    codes = [b"\x03"] + [struct.pack(">H", code) for code in (0, 999, 1005, 1006, 1015, 5000)]
    return [refused(echo, frame(CLOSE, payload)) for payload in codes + [b"\x03\xe8\xff"]]


@row("a text behind a close is thrown away", [("close", 1000), "end"])
def text_behind_close(echo):
    peer = opened(echo)
    peer.send(frame(CLOSE, b"\x03\xe8") + frame(TEXT, b"late"))
    return peer.rest()


@row("an end within a frame", ["end"])
def end_within(echo):
    peer = opened(echo)
    peer.send(frame(TEXT, b"a" * 100)[:50])
    peer.socket.shutdown(socket.SHUT_WR)
    return peer.rest()


@row("a close within a message in fragments", [("close", 1000), "end"])
def close_within(echo):
    peer = opened(echo)
    peer.send(frame(TEXT, b"ab", fin=False) + frame(CLOSE, b"\x03\xe8"))
    return peer.rest()


@row("two texts and a hang-up", [(TEXT, 3), (TEXT, 3), ("close", 1000), "end"])
def hang_up(echo):
    peer = opened(echo)
    peer.send(frame(TEXT, b"!bye"))
    return peer.rest()


@row("a long text and a hang-up, to a peer that reads later", [(TEXT, 20000000), ("close", 1000), "end"], LONG)
def long_hang_up(echo):
    peer = opened(echo, 4096)
    peer.send(frame(TEXT, b"!last 20000000"))
    time.sleep(1)
    return peer.rest()


@row("an end without a close: what waits still comes", [(TEXT, 5000000), "end"], LONG)
def half_end(echo):
    peer = opened(echo, 4096)
    peer.send(frame(TEXT, b"!many 1 5000000"))
    time.sleep(0.3)
    peer.socket.shutdown(socket.SHUT_WR)
    return peer.rest()


@row("a peer that vanishes, and one after it", (TEXT, b"hello"))
def vanishes(echo):
    peer = opened(echo)
    peer.socket.setsockopt(socket.SOL_SOCKET, socket.SO_LINGER, struct.pack("ii", 1, 0))
    peer.send(frame(TEXT, b"x"))
    peer.socket.close()
    time.sleep(0.2)
    return echoed(echo)


@row("a peer that vanishes while much waits for it, and one after it", (TEXT, b"hello"))
def vanishes_late(echo):
    peer = opened(echo, 4096)
    peer.socket.setsockopt(socket.SOL_SOCKET, socket.SO_LINGER, struct.pack("ii", 1, 0))
    peer.send(frame(TEXT, b"!many 300 10000"))
    time.sleep(0.2)
    peer.socket.close()
    return echoed(echo)


# Many, and slow.


@row("silent peers, half a frame, half a request, and one beside them: its wait in seconds", is_in(0, 2))
def silent(echo):
    held = [Peer(echo), Peer(echo), opened(echo), opened(echo)]
    held[1].send(request()[:30])
    held[2].send(frame(TEXT, b"a" * 1000)[:500])
    begun = time.time()
    assert echoed(echo) == (TEXT, b"hello")
    return round(time.time() - begun, 3)


@row("20 peers that send a frame byte by byte, beside one that talks: its longest wait in seconds", is_in(0, 2))
def drips(echo):
    peers = [opened(echo) for _ in range(20)]
    data = frame(TEXT, b"d" * 1000)
    other = opened(echo)
    worst = 0.0
    for at in range(300):
        for peer in peers:
            peer.send(data[at : at + 1])
        begun = time.time()
        other.send(frame(TEXT, b"hello"))
        assert other.message() == (TEXT, b"hello")
        worst = max(worst, time.time() - begun)
    return round(worst, 4)


@row("1,100 handshakes that never end: the oldest are given up, and one that talks is served", [is_in(76, 80), (TEXT, b"hello")])
def endless_handshakes(echo):
    peers = []
    for _ in range(1100):
        peers.append(Peer(echo))
        peers[-1].send(b"GET / HTTP/1.1\r\n")
    beside = echoed(echo)
    closed = 0
    for peer in peers:
        peer.socket.setblocking(False)
        try:
            closed += peer.socket.recv(1) == b""
        except BlockingIOError:
            pass
        except ConnectionError:
            closed += 1
        peer.socket.close()
    return [closed, beside]


@row("1,000 connections that are opened and dropped, one by one and all at once, and one after them", (TEXT, b"hello"))
def dropped(echo):
    for _ in range(1000):
        peer = socket.socket()
        peer.connect(echo.address)
        peer.close()
    peers = [Peer(echo) for _ in range(1000)]
    for at, peer in enumerate(peers):
        peer.send(request()[: at % 200])
        if at % 2:
            peer.socket.setsockopt(socket.SOL_SOCKET, socket.SO_LINGER, struct.pack("ii", 1, 0))
    for peer in peers:
        peer.socket.close()
    return echoed(echo)


@row("1,024 connections at once: all are served; idle, in 2 s, they take few hundredths of a second; memory in MB", [1024, is_in(0, 5), is_in(0, 100)])
def thousand(echo):
    peers = []
    for _ in range(8):
        some = [Peer(echo) for _ in range(128)]
        for peer in some:
            peer.send(request())
        for peer in some:
            peer.head()
        peers += some
    begun = echo.ticks()
    time.sleep(2)
    idle = echo.ticks() - begun
    for peer in peers:
        peer.send(frame(TEXT, b"e" * 100))
    served = sum(peer.message() == (TEXT, b"e" * 100) for peer in peers)
    most = echo.megabytes()
    for peer in peers:
        peer.socket.close()
    return [served, idle, most]


@row("200 MB in one step for a reader that begins later", [200, (TEXT, b"hello"), is_in(0, 330)], LONG)
def history(echo):
    peer = opened(echo)
    peer.send(frame(TEXT, b"!many 200 1000000"))
    time.sleep(1)
    most = echo.megabytes()
    beside = echoed(echo)
    got = 0
    while got < 200 and peer.message()[0] == TEXT:
        got += 1
    return [got, beside, most]


@row("a reader that does not read: what waited, then a close; no more memory than waits", [50, "close", is_in(0, 200)], LONG)
def slow_reader(echo):
    peer = opened(echo, 4096)
    peer.send(frame(TEXT, b"!many 50 1000000"))
    time.sleep(2)
    most = echo.megabytes()
    peer.send(frame(TEXT, b"more"))
    time.sleep(1)
    rest = peer.rest()
    return [sum(one == (TEXT, 1000000) for one in rest), rest[-2][0], most]


@row("one that sends and never reads, beside one that talks", [is_in(0, 1), is_in(0, 150)], LONG)
def flood(echo):
    peer = opened(echo)
    peer.socket.settimeout(3)
    data = frame(TEXT, b"z" * 100000)
    stop = threading.Event()

    def send():
        try:
            while not stop.is_set():
                peer.send(data)
        except OSError:
            pass

    thread = threading.Thread(target=send)
    thread.start()
    time.sleep(1)
    begun = time.time()
    assert echoed(echo) == (TEXT, b"hello")
    worst = round(time.time() - begun, 3)
    time.sleep(2)
    most = echo.megabytes()
    stop.set()
    thread.join()
    peer.socket.close()
    return [worst, most]


@row("pings without end from one that never reads: it is not read either", [is_in(0, 150)], LONG)
def ping_flood(echo):
    peer = opened(echo)
    peer.socket.settimeout(3)
    data = frame(PING, b"z" * 125) * 1000
    try:
        for _ in range(2000):
            peer.send(data)
    except OSError:
        pass
    most = echo.megabytes()
    peer.socket.close()
    return [most]


@row("empty fragments without end, beside one that talks: its longest wait in seconds", is_in(0, 2))
def fragment_flood(echo):
    peer = opened(echo)
    peer.socket.settimeout(1)
    peer.send(frame(TEXT, b"a", fin=False))
    data = frame(0, fin=False) * 5000
    stop = threading.Event()

    def send():
        try:
            while not stop.is_set():
                peer.send(data)
        except OSError:
            pass

    thread = threading.Thread(target=send)
    thread.start()
    other = opened(echo)
    worst = 0.0
    for _ in range(300):
        begun = time.time()
        other.send(frame(TEXT, b"q" * 50))
        other.message()
        worst = max(worst, time.time() - begun)
    stop.set()
    thread.join()
    peer.socket.close()
    return round(worst, 4)


@row("50 connections that had 4 MB each way: how many MB they keep", is_in(0, 100), LONG)
def kept(echo):
    before = echo.megabytes()
    peers = [opened(echo) for _ in range(50)]
    for peer in peers:
        peer.send(frame(TEXT, b"k" * 4000000))
        assert len(peer.message()[1]) == 4000000
    time.sleep(0.5)
    after = echo.megabytes()
    for peer in peers:
        peer.socket.close()
    return after - before


@row("80 readers that do not read, 33 MB each: at most 2 GiB wait in all, some sends fail", [is_in(0, 2300), is_in(1, 80), (TEXT, b"hello")], LARGE)
def most_unsent(echo):
    peers = [opened(echo) for _ in range(80)]
    for peer in peers:
        peer.send(frame(TEXT, b"!many 33 1000000"))
    before = -1
    for _ in range(60):
        most = echo.megabytes()
        if most == before:
            break
        before = most
        time.sleep(2)
    beside = echoed(echo)
    cut = 0
    for peer in peers:
        got = 0
        try:
            while got < 33 and peer.message()[0] == TEXT:
                got += 1
        except (EOFError, ConnectionError):  # one that is hung up may be given up, for the sake of others
            pass
        cut += got < 33
    return [most, cut, beside]


# The port and the link.


@row("the link: 2,000 texts there and back", b"all 2000\n")
def link(echo):
    return subprocess.run([echo.program, "dial", echo.word(), "2000"], capture_output=True, timeout=60).stdout


@row("an address in use; words that are no address", [b"listen: failed\n"] * 4)
def in_use(echo):
    words = [echo.word(), "localhost:9001", "127.0.0.1", "127.0.0.1:99999"]
    return [subprocess.run([echo.program, "serve", word, "10"], capture_output=True, timeout=60).stdout for word in words]


@row("the address again, while connections of before wait to be forgotten", (TEXT, b"hello"))
def again(echo):
    peers = [opened(echo) for _ in range(5)]
    for peer in peers:
        peer.send(frame(TEXT, b"!bye"))
        peer.rest()
    echo.stop()
    echo.start()
    return echoed(echo)


@row("40 descriptors, 60 connections: little time, and served once places are free", [is_in(0, 20), (TEXT, b"hello")], LONG)
def few_descriptors(echo):
    other = Echo(echo.program, descriptors=40)
    try:
        peers = [Peer(other) for _ in range(60)]
        time.sleep(1)
        begun = other.ticks()
        time.sleep(3)
        spent = other.ticks() - begun
        for peer in peers:
            peer.socket.close()
        time.sleep(1)
        return [spent, echoed(other)]
    finally:
        other.stop()


def agrees(wanted, got):
    if callable(wanted):
        return wanted(got)
    if isinstance(wanted, list) and isinstance(got, list):
        return len(wanted) == len(got) and all(agrees(one, other) for one, other in zip(wanted, got))
    return wanted == got


def shown(wanted):
    if callable(wanted):
        return wanted.words
    if isinstance(wanted, list):
        return "[" + ", ".join(shown(one) for one in wanted) + "]"
    return repr(wanted)


def main():
    parser = argparse.ArgumentParser(description=__doc__.split("\n")[0])
    parser.add_argument("--program", default=os.path.join(TOP, "crates/ws_echo/out/ws_echo"))
    parser.add_argument("--only", default="")
    parser.add_argument("--long", action="store_true")
    parser.add_argument("--large", action="store_true")
    options = parser.parse_args()
    most = resource.getrlimit(resource.RLIMIT_NOFILE)[1]
    resource.setrlimit(resource.RLIMIT_NOFILE, (most, most))
    echo = Echo(options.program)
    failed = passed = 0
    try:
        largest = LARGE if options.large else LONG if options.long or options.only else QUICK
        for name, wanted, function, size in ROWS:
            if options.only not in name or size > largest:
                continue
            begun, ticks = time.time(), echo.ticks()
            try:
                got = function(echo)
            except Exception as error:
                got = repr(error)
            good = agrees(wanted, got) and echo.process.poll() is None
            passed, failed = passed + good, failed + (not good)
            print("%s  %s" % ("ok  " if good else "FAIL", name), flush=True)
            print("      wanted %s\n      got    %s" % (shown(wanted), got), flush=True)
            if echo.process.poll() is None:
                spent = (time.time() - begun, max(0, echo.ticks() - ticks) / 100, echo.megabytes("VmHWM"))
                print("      %.2f s, %.2f s of the program, at most %d MB so far" % spent, flush=True)
    finally:
        echo.stop()
    print("%d passed, %d failed" % (passed, failed))
    return 1 if failed else 0


if __name__ == "__main__":
    sys.exit(main())
