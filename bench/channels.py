#!/usr/bin/env python3
"""Measures `padnet serve` and `padnet log`, in alternation with a plain program that makes the same file calls and promises nothing.

usage: bench/channels.py [--folder FOLDER] [--program PATH] [--scale N] [ROW ..]

`bench/plain.c` is the plain server, `bench/load.c` the clients; a C compiler, `cc`, makes both. All files are in FOLDER, a temporary one if there is
none: the figures of a real disk and those of a file system in memory differ much. `--scale 0.1` makes every row a tenth as large. Rows, all if none is named:

  window    the median of an acknowledged message at a window of one: padnet, plain, and the bare four file calls; and of a ping
  spread    deliveries a second to 1,000 readers of one channel
  history   a history of 100,000 entries, in bytes a second
  load      a log of 1 GiB: the time until a first question is answered, and that of reading the file, read before or not
  log       `padnet log` of 100,000 entries, and a bare copy of the file
  idle      the processor time of 1,024 silent connections
  slow      memory with readers that do not read
  memory    memory at the start, of connections, channels and entries
  start     the time of a start over 4,000 files
"""

import argparse
import json
import os
import pathlib
import statistics
import subprocess
import sys
import tempfile
import time

TOP = pathlib.Path(__file__).resolve().parent.parent
sys.path.insert(0, str(TOP / "tests"))
from serve import Client, Server, compact, entered, fresh, keeper_of, texts  # noqa: E402

MIB = 1 << 20


class Plain(Server):
    """The plain server."""

    def words(self, turns=None):
        return [*self.command, "%s:%d" % self.address, str(self.folder)]

    def start(self):
        self.folder.mkdir(exist_ok=True)
        return super().start()


class Apart(Plain):
    """The plain server, with calls of its own for each entry of a history."""

    def words(self, turns=None):
        return [*super().words(), "apart"]


class Bench:
    """The programs, a folder, and how large the rows are."""

    def __init__(self, program, folder, scale):
        self.program, self.folder, self.scale, self.number = program, folder, scale, 0
        self.load, self.plain = (str(folder / name) for name in ("load", "plain"))
        for path in (self.load, self.plain):
            source = TOP / "bench" / (os.path.basename(path) + ".c")
            subprocess.run(["cc", "-O2", "-o", path, str(source)], check=True)

    def count(self, number):
        return max(1, int(number * self.scale))

    def new_folder(self):
        self.number += 1
        return self.folder / f"pads{self.number}"

    def servers(self, *kinds):
        """Started servers over new folders: padnet's own and plain ones."""
        out = [kind([self.program if kind is Server else self.plain], self.new_folder(), 60) for kind in kinds]
        for server in out:
            server.start()
        return out

    def run(self, row, *words):
        """The rows that `load` prints, as (name, what): numbers."""
        done = subprocess.run([self.load, row, *map(str, words)], stdout=subprocess.PIPE, text=True, check=True)
        rows = [line.split() for line in done.stdout.splitlines()]
        return {(it[0], it[1]): [float(number) for number in it[2:]] for it in rows if len(it) > 2} | {it[0]: it[1] for it in rows if len(it) == 2}

    def held(self, row, *words):
        """`load` in a row that waits until it is let go, and what it printed before."""
        process = subprocess.Popen([self.load, row, *map(str, words)], stdin=subprocess.PIPE, stdout=subprocess.PIPE, text=True)
        lines = []
        while not lines or lines[-1] not in ("ready\n", ""):
            lines.append(process.stdout.readline())
        return process, lines


def let_go(process):
    process.stdin.close()
    process.wait()


def name_of(server):
    return "%s:%d/%d" % (*server.address, server.process.pid)


def kill(*servers):
    for server in servers:
        server.process.kill()
        server.process.wait()


def memory(server, what="VmRSS"):
    """Bytes that the system keeps for the program."""
    for line in pathlib.Path(f"/proc/{server.process.pid}/status").read_text().splitlines():
        if line.startswith(what + ":"):
            return int(line.split()[1]) * 1024
    return 0


def processor(server):
    """Seconds of processor time."""
    return int(pathlib.Path(f"/proc/{server.process.pid}/schedstat").read_text().split()[0]) / 1e9


def two_servers(bench, row, *words):
    servers = bench.servers(Server, Plain)
    try:
        return servers, bench.run(row, *words, *map(name_of, servers))
    finally:
        kill(*servers)


def window(bench):
    (padnet, plain), got = two_servers(bench, "window", bench.count(1000), 100, bench.folder)
    mine, other = name_of(padnet), name_of(plain)
    rows = {"padnet": (mine, "seconds"), "plain": (other, "seconds"), "bare calls": ("bare", "seconds")}
    rows |= {"ping of padnet": (mine, "ping"), "ping of plain": (other, "ping")}
    for name, key in rows.items():
        middle, low, high, mean = (figure * 1e6 for figure in got[key])
        print(f"  {name}: median {middle:.0f} us, a tenth below {low:.0f}, a tenth above {high:.0f}, mean {mean:.0f}")
    for at, what in ((0, "medians"), (3, "means")):
        message, simple, bare, ping, pong = (got[key][at] for key in rows.values())
        print(f"  by {what}: a message of padnet to one of plain {message / simple:.2f}", end="")
        print(f"; less a ping, which stores nothing, {(message - ping) / (simple - pong):.2f}, and to the bare calls {(message - ping) / bare:.2f}")


def spread(bench):
    (padnet, plain), got = two_servers(bench, "spread", bench.count(1000), 20, 100, 15)
    for what, unit in (("deliveries", "deliveries a second"), ("joins", "texts a second while all join")):
        mine, other = (got[name_of(server), what][0] for server in (padnet, plain))
        print(f"  {unit}: padnet {mine:,.0f}, plain {other:,.0f}, ratio {mine / other:.2f}")
    mine, other = (got[name_of(server), "processor"][0] * 1e6 for server in (padnet, plain))
    print(f"  processor time of a delivery: padnet {mine:.2f} us, plain {other:.2f}, ratio {other / mine:.2f}")


def write_log(path, count, bytes_each):
    """A log of entries with different contents."""
    with open(path, "wb", 1 << 20) as file:
        file.write(b"PADLOG2\n" + b"\x01" + bytes(4))  # and the marker of a channel that needs no older file
        sender = b"0123456789abcdef0123456789abcdef"
        for at in range(count):
            content = b"%08d" % at
            content += b"a" * (bytes_each - len(content))
            file.write(b"\x01" + (40 + bytes_each).to_bytes(4, "big") + at.to_bytes(8, "big") + sender + content)
        file.write(b"\x00")
        file.flush()
        os.fsync(file.fileno())
    return os.path.getsize(path)


def history(bench):
    channel = fresh()
    # Together less than 32 MiB: a reader that lags further behind when the next event is waited for loses its next text.
    for size, count in ((100, bench.count(100_000)), (1000, bench.count(25_000))):
        servers = bench.servers(Server, Plain, Apart)
        for server in servers:
            write_log(server.folder / (channel + ".padlog2"), count, size)
        got = bench.run("history", channel, 15, *map(name_of, servers))
        rates = [got[name_of(server), "bytes"][0] for server in servers]
        most = [memory(server, "VmHWM") / MIB for server in servers]
        cost = [got[name_of(server), "processor"][0] * 1e6 for server in servers]
        kill(*servers)
        print(f"  contents of {size} bytes, {int(got['texts']) - 2} entries; memory of padnet at most {most[0]:.0f} MiB")
        print("  MiB a second: padnet {:.0f}, plain {:.0f}, plain with calls for each entry {:.0f}".format(*(it / MIB for it in rates)), end="")
        print(f", ratios {rates[0] / rates[1]:.2f} and {rates[0] / rates[2]:.2f}")
        print("  processor time of an entry: {:.2f}, {:.2f}, {:.2f} us".format(*cost), end="")
        print(f", ratios {cost[1] / cost[0]:.2f} and {cost[2] / cost[0]:.2f}")


def read_all(path):
    began = time.perf_counter()
    with open(path, "rb", 0) as file:
        piece = bytearray(65536)
        while file.readinto(piece):
            pass
    return time.perf_counter() - began


def forget(path):
    """The system is to read the file from the disk again."""
    file = os.open(path, os.O_RDONLY)
    os.posix_fadvise(file, 0, 0, os.POSIX_FADV_DONTNEED)
    os.close(file)


def load(bench):
    channel, count = fresh(), bench.count(1_000_000)
    folder = bench.new_folder()
    folder.mkdir()
    path = folder / (channel + ".padlog2")
    size = write_log(path, count, 1028)
    for kind, before in (("from the disk", forget), ("read before", read_all)):
        loads, reads, cost, most = [], [], [], 0
        for _ in range(3):
            before(path)
            reads.append(read_all(path))
            server = Server([bench.program], folder, 60)
            server.start()
            client = entered(server)
            keeper = keeper_of(client, fresh())
            before(path)
            used, began = processor(server), time.perf_counter()
            client.ask([3, "MSG", keeper, compact(["GET_HISTORY_AT", channel, count])])
            loads.append(time.perf_counter() - began)
            cost.append(processor(server) - used)
            most = max(most, memory(server, "VmHWM"))
            kill(server)
        middle = statistics.median
        print(f"  {size / MIB:.0f} MiB {kind}: loaded in {middle(loads):.2f} s ({middle(cost):.2f} of processor time)", end="")
        print(f", read in {middle(reads):.2f}, speed {middle(reads) / middle(loads):.2f} of reading; memory at most {most / MIB:.0f} MiB for {count} entries")


def log(bench):
    channel, count = fresh(), bench.count(100_000)
    folder = bench.new_folder()
    folder.mkdir()
    path, out = folder / (channel + ".padlog2"), folder / "out"
    for size in (100, 1000):
        bytes_in = write_log(path, count, size)
        for kind, before in (("from the disk", forget), ("read before", read_all)):
            times = {"padnet": [], "copy": []}
            for _ in range(7):
                for name, words in (("padnet", [bench.program, "log", str(folder), channel]), ("copy", ["cat", str(path)])):
                    before(path)
                    with open(out, "wb") as file:
                        began = time.perf_counter()
                        run = subprocess.Popen(words, stdout=file)
                        _, run.returncode, usage = os.wait4(run.pid, 0)
                        assert run.returncode == 0
                        times[name].append((time.perf_counter() - began, usage.ru_utime + usage.ru_stime))
            (mine, used), (bare, copying) = ([statistics.median(it) * 1000 for it in zip(*times[name])] for name in ("padnet", "copy"))
            print(f"  contents of {size} bytes, {bytes_in / MIB:.0f} MiB {kind}: padnet log {mine:.0f} ms ({used:.0f} of processor time)", end="")
            print(f", cat {bare:.0f} ({copying:.0f}), speed {bare / mine:.2f} of a copy")


def idle(bench):
    (server,) = bench.servers(Server)
    process, _ = bench.held("hold", 1024, name_of(server))
    time.sleep(1)
    used = processor(server)
    time.sleep(10)
    used = processor(server) - used
    let_go(process)
    kill(server)
    print(f"  1,024 connections, silent for 10 s: {used * 1000:.1f} ms of processor time")


def slow(bench):
    for readers, messages, size in ((1000, 40, 100_000), (20, 45, 1_000_000)):
        (server,) = bench.servers(Server)
        process, lines = bench.held("slow", bench.count(readers), messages, size, name_of(server))
        most = memory(server, "VmHWM")
        let_go(process)
        kill(server)
        print(f"  {bench.count(readers)} readers of {messages} messages of {size:,} bytes: at most {most / MIB:.0f} MiB, {lines[0].strip()}")


def filled(bench, channels, entries, size):
    """A folder of channels with so many entries."""
    folder = bench.new_folder()
    folder.mkdir()
    names = [fresh() for _ in range(channels)]
    for name in names:
        write_log(folder / (name + ".padlog2"), entries, size)
    return folder, names


def loading(bench, channels, entries, size):
    """The memory before and after channels are loaded."""
    folder, names = filled(bench, channels, entries, size)
    server = Server([bench.program], folder, 60)
    server.start()
    client = entered(server)
    keeper = keeper_of(client, fresh())
    before = memory(server)
    for name in names:
        wanted = texts([[3, "ACK"], [0, keeper, "HISTORY_END", name, entries]])
        assert client.ask([3, "MSG", keeper, compact(["GET_HISTORY_AT", name, entries])]) == wanted
    after = memory(server)
    kill(server)
    return before, after


def memories(bench):
    (server,) = bench.servers(Server)
    time.sleep(0.5)
    begun = memory(server)
    print(f"  at the start {begun / 1024:.0f} KiB")
    process, _ = bench.held("hold", 500, name_of(server))
    print(f"  500 connections {(memory(server) - begun) / 1024:.0f} KiB more")
    let_go(process)
    clients = [entered(server) for _ in range(500)]
    for client in clients:
        keeper_of(client, fresh())
    print(f"  500 connections, each in a channel of its own, {(memory(server) - begun) / 1024:.0f} KiB more")
    channel = fresh()
    keeper = keeper_of(clients[0], channel)
    count = bench.count(3000)
    before, size = memory(server), 100
    for at in range(count):
        clients[0].ask([2, "MSG", channel, str(at).zfill(size)])
    print(f"  {count} messages to a channel {(memory(server) - before) / 1024:.0f} KiB more")
    kill(server)
    path = server.folder / (channel + ".padlog2")
    print(f"  {count} entries of {size} bytes on the disk: {(os.path.getsize(path) - 14) / count:.1f} bytes each, and 14 of the file")
    for channels, entries in ((1000, 10), (1, 3000), (1, 30_000), (1, 300_000)):
        before, after = loading(bench, channels, entries, 100)
        each = (after - before) / channels / entries
        print(f"  {channels} channels of {entries} entries loaded: {(after - before) / 1024:.0f} KiB more, {each:.0f} bytes an entry")


def start(bench):
    folder, _ = filled(bench, bench.count(4000), 10, 100)
    empty = bench.new_folder()
    for what, where in (("an empty folder", empty), (f"{bench.count(4000)} files", folder)):
        times = []
        for _ in range(9):
            server = Server([bench.program], where, 60)
            began = time.perf_counter()
            server.process = subprocess.Popen(server.words(), stdout=subprocess.DEVNULL)
            while True:
                try:
                    client = Client(server)
                    break
                except OSError:
                    time.sleep(0.0005)
            assert json.loads(client.hear())[2] == "IDENT"
            times.append(time.perf_counter() - began)
            kill(server)
        print(f"  {what}: a first client has its identity {statistics.median(times) * 1000:.0f} ms after the start")


ROWS = {"window": window, "spread": spread, "history": history, "load": load, "log": log, "idle": idle, "slow": slow, "memory": memories, "start": start}


def main():
    words = argparse.ArgumentParser(description=__doc__, formatter_class=argparse.RawDescriptionHelpFormatter)
    words.add_argument("rows", nargs="*", choices=[*ROWS, []], metavar="ROW")
    words.add_argument("--folder", help="where the files are, and room for some 2 GiB is")
    words.add_argument("--program", default=str(TOP / "crates" / "padnet" / "out" / "padnet"))
    words.add_argument("--scale", type=float, default=1)
    words = words.parse_args()
    with tempfile.TemporaryDirectory(dir=words.folder) as folder:
        bench = Bench(words.program, pathlib.Path(folder), words.scale)
        for name in words.rows or ROWS:
            load_now = pathlib.Path("/proc/loadavg").read_text().split()[0]
            print(f"{name} (the machine's load is {load_now} at {os.cpu_count()} processors)", flush=True)
            ROWS[name](bench)
            sys.stdout.flush()
    return 0


if __name__ == "__main__":
    sys.exit(main())
