#!/usr/bin/env python3
"""Tries `padnet client` from outside: the program as a client of `padnet serve`, which is the program, too.

usage: tests/client.py [--quick] [--seconds N] [COMMAND ..]

It starts the server on 127.0.0.1 over a folder of its own. COMMAND is the program with its first words (`./padnet` if there is none). Two clients
carry out examples/hello.script, one after the other, and the report of the second one has to be that of the second program (tests/oracle.py) for
the contents that the server's log has. The same is tried with two clients that write at once, and with ends of each kind. For each row it prints
what was wanted and what came, if they differ. The status is 1 if any row differs.
"""

import argparse
import json
import os
import pathlib
import subprocess
import sys
import tempfile

sys.path.insert(0, os.path.dirname(os.path.abspath(__file__)))
import oracle  # noqa: E402
from serve import C, Server, compact, entered, keeper_of  # noqa: E402

TOP = pathlib.Path(__file__).resolve().parent.parent
HELLO = (TOP / "examples" / "hello.script").read_text()


def client(server, script, address=None):
    """How a client ends that carries out a script, and what it writes."""
    words = [*server.command, "client", address or "%s:%d" % server.address]
    done = subprocess.run(words, input=script.encode(), stdout=subprocess.PIPE, timeout=300)
    return done.returncode, done.stdout.decode()


def contents(server, channel):
    """The contents that the channel's log has."""
    words = [*server.command, "log", str(server.folder), channel]
    lines = subprocess.run(words, stdout=subprocess.PIPE, timeout=300).stdout.decode().splitlines()
    return [json.loads(line.split(" ", 3)[3]) for line in lines[:-1]]


def report(messages, outbox=0):
    """The report of a client that received these contents and has no work."""
    told = oracle.replay("".join(content + "\n" for content in messages).encode()).report()
    text = told.splitlines()[-1].partition(" ")[2]
    return told + "outbox %d\nwork 0\nshown %s\n" % (outbox, text)


def channel_of(number):
    return "%032x" % number


def hello(server):
    """Two clients carry out the example, one after the other."""
    first = client(server, HELLO)
    one = report(contents(server, C))
    second = client(server, HELLO)
    both = report(contents(server, C))
    wanted = [(0, one), (0, both), 2, True, True]
    return wanted, [first, second, len(contents(server, C)), '\ntext "hello, world!\\n"\n' in one, '\ntext "hello, world!\\nhello, world!\\n"\n' in both]


def at_once(server):
    """Two clients write to one channel at once; a third one that reads the history afterwards tells what both wrote."""
    channel = channel_of(7)
    scripts = []
    for letter in "ab":
        lines = ["join " + channel, "history"]
        for _ in range(60):
            lines += ['edit 0 0 "%s"' % letter, "sync", "settle"]
        scripts.append("\n".join(lines + ["show", ""]))
    running = []
    for script in scripts:
        words = [*server.command, "client", "%s:%d" % server.address]
        running.append(subprocess.Popen(words, stdin=subprocess.PIPE, stdout=subprocess.PIPE))
        running[-1].stdin.write(script.encode())
        running[-1].stdin.close()
    ends = [(process.stdout.read() and process.wait()) for process in running]
    third = client(server, "join %s\nhistory all\nshow\n" % channel)
    written = contents(server, channel)
    # of each client all that it sent is there
    return [[0, 0], (0, report(written)), True], [ends, third, len(written) >= 120]


def refusals(server):
    """Lines that are refused, errors that are heard, and a repair."""
    channel = channel_of(8)
    script = "leave\njoin %s\njoin %s\nedit 1 0 \"x\"\nhistory all\nedit 0 0 \"hi\"\nsync\nsettle\nrepair\nshow\n" % (channel, channel)
    told = client(server, script)
    wanted = "refused 1 NotJoined\nrefused 3 Joined\nrefused 4 Range\n" + report(contents(server, channel))
    return [(0, wanted)], [told]


def longest(server):
    """The longest text: one letter more is refused, the text is sent."""
    channel = channel_of(10)
    script = 'join %s\nedit 0 0 "%s"\nedit 0 0 "x"\nsync\nsettle\nshow\n' % (channel, "a" * 262144)
    told = client(server, script)
    return [(0, "refused 3 TooLong\n" + report(contents(server, channel)))], [told]


def ends(server):
    """Each end that has a status of its own."""
    gone = channel_of(9)
    rows = [
        (client(server, "show\n\njoin x\n"), (8, "bad script line 3\n")),
        (client(server, "show\n", "127.0.0.1:1"), (6, "link fault\n")),
        (client(server, "show\n", "nowhere"), (6, "link fault\n")),
        (client(server, ""), (0, "")),
    ]
    # what another connection says, once the client has joined, is heard
    other = entered(server)
    keeper_of(other, gone)
    words = [*server.command, "client", "%s:%d" % server.address]
    listener = subprocess.Popen(words, stdin=subprocess.PIPE, stdout=subprocess.PIPE)
    listener.stdin.write(("join %s\nhear 1\nshow\n" % gone).encode())
    listener.stdin.close()
    other.hear()  # it has joined
    content = compact([2, [[0, 0, "hi"], oracle.document_hash("")], "0" * 64])
    other.say([2, "MSG", gone, content])
    told = listener.stdout.read().decode()
    other.close()
    rows.append(((listener.wait(), told), (0, report([content]))))
    return [row[1] for row in rows], [row[0] for row in rows]


ROWS = [hello, at_once, refusals, longest, ends]


def main():
    parser = argparse.ArgumentParser()
    parser.add_argument("--seconds", type=float, default=20, help="how long to wait until the server listens")
    parser.add_argument("--quick", action="store_true", help="leave out the row of two clients that write at once")
    parser.add_argument("command", nargs="*")
    args = parser.parse_args()
    differ = 0
    with tempfile.TemporaryDirectory() as folder:
        server = Server(args.command or [str(TOP / "padnet")], pathlib.Path(folder) / "pads", args.seconds)
        server.start()
        try:
            for function in ROWS:
                if args.quick and function is at_once:
                    continue
                wanted, got = function(server)
                differ += wanted != got
                print("%s %s" % ("same" if wanted == got else "DIFFERS", function.__name__), flush=True)
                for w, g in zip(wanted, got):
                    if w != g:
                        print("   wanted", repr(w)[:900], "\n   got   ", repr(g)[:900], flush=True)
        finally:
            server.kill()
    print("all agree" if not differ else "%d rows differ" % differ)
    return 1 if differ else 0


if __name__ == "__main__":
    sys.exit(main())
