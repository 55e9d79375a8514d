#!/usr/bin/env python3
"""Has each call of the system fail once, in turn, in runs of every command: each sync, write, read, opening and call of a socket with EIO, by
strace, and each allocation, by a library that is loaded before the C library (bench/refusing.c, which needs cc). Each run has to end with a
status and a message that are stated, tell nothing that doesn't stand in the store, and leave a store with which the same command, called
again, comes to what it comes to without a failure. Runs that a fault is to hit, but doesn't, end the series.

    bench/faults.py [PROGRAM [WORD [STEP]]]     PROGRAM is crates/wef/out/wef where it isn't given. WORD: only series whose titles have it, as
                                                `collect pwrite64`. STEP: of allocations each so-manieth alone; 1 where it isn't given

Prints for each series how many runs ended with which status. Exits with 1 where one didn't end well. It needs strace.
"""
import collections
import os
import re
import shutil
import socket
import sqlite3
import subprocess
import sys
import tempfile
import time

import collect
import shapes
import strangers

HERE = os.path.dirname(os.path.abspath(__file__))
SECONDS = 20
CALLS = "fsync fdatasync write pwrite64 sendto read pread64 recvfrom openat statx fcntl ftruncate socket bind listen accept4 connect shutdown".split()
MESSAGES = {
    0: r"",
    3: r"(line|place) \d+: not understood\n|element \w+: not understood\n",
    4: r"store failed\n",
    5: r"(input|output|listening|link) failed\n",
    6: r"no memory\n",
    7: r"already \S+\n",
    8: r"exists \S+\n",
}
# How a run may end in which something fails (a commit that finds no memory once it has begun is one that failed), and one that comes after it
# and finds what was done.
FAILED = {"a call": {0, 4, 5}, "an allocation": {0, 4, 6}}
AGAIN = {0, 7, 8}
# The loader's own calls are none of the program's.
LOADING = b"error while loading shared libraries"
EVENT = (
    "<Event xmlns='http://schemas.microsoft.com/win/2004/08/events/event'><System><Level>4</Level><Channel>Security</Channel></System>"
    "<EventData><Data>{}</Data></EventData></Event>\n"
)
EVENTS = [EVENT.format(number) for number in range(4)]
TWO_EACH = collect.SUBSCRIPTION.replace("<Query>", "<Delivery Mode='Push'><Batching><MaxItems>2</MaxItems></Batching></Delivery><Query>", 1)
REQUEST = collect.request(1, 1)


class Wrong(Exception):
    """An end that isn't good."""


class CallFault:
    """The call of this name that is the so-manieth fails."""

    kind = "a call"

    def __init__(self, room, name, number):
        self.trace = os.path.join(room, "trace")
        self.words = ["strace", "-qq", "-o", self.trace, "-e", f"trace={name}", "-e", f"inject={name}:error=EIO:when={number}"]
        self.environment = None

    def was_hit(self):
        with open(self.trace, "rb") as trace:
            return b"(INJECTED)" in trace.read()


class MemoryFault:
    """The so-manieth allocation is refused."""

    kind = "an allocation"

    def __init__(self, room, library, number):
        self.mark = os.path.join(room, "refused")
        self.words = []
        self.environment = {**os.environ, "LD_PRELOAD": library, "REFUSE": str(number), "REFUSED": self.mark}

    def was_hit(self):
        return os.path.exists(self.mark)


class Run:
    """A run of the program in a folder, in which something fails where a fault is given."""

    def __init__(self, program, folder, words, fault=None):
        front, environment = (fault.words, fault.environment) if fault else ([], None)
        pipes = {"stdin": subprocess.PIPE, "stdout": subprocess.PIPE, "stderr": subprocess.PIPE}
        self.process = subprocess.Popen([*front, program, *words], cwd=folder, env=environment, **pipes)
        self.first = b""

    def listens(self):
        """Whether it came so far that it listens."""
        self.first = self.process.stdout.readline()
        return self.first.startswith(b"listening ")

    def ended(self, given=b""):
        """Its status and what it printed."""
        try:
            out, error = self.process.communicate(given, timeout=SECONDS)
        except subprocess.TimeoutExpired:
            self.process.kill()
            self.process.communicate()
            raise Wrong("it hangs")
        return self.process.returncode, self.first + out, error

    def stop(self):
        self.process.kill()
        self.process.communicate()


def free_port():
    with socket.create_server(("127.0.0.1", 0)) as free:
        return free.getsockname()[1]


def exchange(port, sent):
    """The status of the response to a request in a connection of its own, or nothing."""
    try:
        with socket.create_connection(("127.0.0.1", port), timeout=SECONDS) as link:
            link.sendall(sent)
            link.shutdown(socket.SHUT_WR)
            heard = b""
            while more := link.recv(65536):
                heard += more
            return heard[9:12]
    except TimeoutError:
        raise Wrong("a connection hangs")
    except OSError:
        return b""


def rows_of(folder):
    """The rows of a store, as a copy of its files has them, without boot numbers, moments and texts that are new each time."""
    with tempfile.TemporaryDirectory() as copy:
        shutil.copytree(folder, copy, dirs_exist_ok=True)
        if not os.path.exists(os.path.join(copy, "wef.db")) or os.path.getsize(os.path.join(copy, "wef.db")) == 0:
            return []
        try:
            return [row for row in strangers.rows_of(copy) if row[0] not in (8, 12)]
        except sqlite3.OperationalError as error:
            if "no such table" in str(error):
                return []
            raise Wrong(f"sqlite3 can't read the store: {error}")


class Command:
    """A command that reads its input and ends."""

    def __init__(self, name, words, given=b"", before=()):
        self.name, self.words, self.given, self.before = name, words, given, before

    def prepare(self, program, room):
        os.mkdir(os.path.join(room, "store"))
        for words, given in self.before:
            subprocess.run([program, *words], cwd=os.path.join(room, "store"), input=given, check=True, stdout=subprocess.DEVNULL)

    def act(self, program, room, fault=None):
        """Runs it: how it ended."""
        return Run(program, os.path.join(room, "store"), self.words, fault).ended(self.given)

    def told(self, wanted, ended, _room):
        """Whether it told only what it tells without a failure, and all of it where it says so."""
        return wanted.startswith(ended[1]) and (ended[0] != 0 or wanted == ended[1])

    def rows(self, room):
        """The rows that are to be the same in the end."""
        return rows_of(os.path.join(room, "store"))


class Adding(Command):
    """`add` or `remove`, whose change stands where it was told."""

    def told(self, wanted, ended, room):
        return super().told(wanted, ended, room) and (not ended[1] or self.rows(room) == self.changed(room))

    def changed(self, room):
        document = [row for row in self.rows(room) if row[0] == 1]
        return document if document and document[0][5] == (1 if self.name == "remove" else 0) else None


class Writing(Command):
    """`write`, which writes what doesn't stand in the log yet."""

    def act(self, program, room, fault=None):
        stand = sum(row[0] == 9 for row in self.rows(room))
        return Run(program, os.path.join(room, "store"), self.words, fault).ended("".join(EVENTS[stand:]).encode())

    def told(self, wanted, ended, room):
        lines = ended[1].count(b"\n")
        return wanted.startswith(ended[1]) and lines <= sum(row[0] == 9 for row in self.rows(room)) <= lines + 1


class Collecting(Command):
    """`collect`, to which two sources send a batch each."""

    def act(self, program, room, fault=None):
        port = free_port()
        run = Run(program, os.path.join(room, "store"), ["collect", f"127.0.0.1:{port}", "2"], fault)
        self.taken = []
        if run.listens():
            self.taken = [source for source in ("pc1", "pc2") if exchange(port, REQUEST.replace(b"/pc1 ", f"/{source} ".encode())) == b"200"]
        return run.ended()

    def told(self, _wanted, ended, room):
        standing = {row[2] for row in self.rows(room) if row[0] == 2 and row[5] == collect.BATCH}
        return set(self.taken) <= standing and (ended[0] != 0 or ended[1].count(b"\nconnection ") == 2)


class Sending(Command):
    """What sends from a source's log to a collector."""

    def prepare(self, program, room):
        super().prepare(program, room)
        os.mkdir(os.path.join(room, "collector"))
        subprocess.run([program, "add"], cwd=os.path.join(room, "collector"), input=TWO_EACH.encode(), check=True, stdout=subprocess.DEVNULL)

    def act(self, program, room, fault=None):
        port = free_port()
        collector = Run(program, os.path.join(room, "collector"), ["collect", f"127.0.0.1:{port}", "1000"])
        try:
            collector.listens()
            return self.send(program, os.path.join(room, "store"), port, fault)
        finally:
            collector.stop()

    def send(self, program, store, port, fault):
        return Run(program, store, ["forward", f"127.0.0.1:{port}", "pc1", "1000"], fault).ended()

    def told(self, _wanted, ended, room):
        return sum(map(int, re.findall(rb"acked (\d+)", ended[1]))) <= sum(row[0] == 3 for row in self.rows(room))

    def rows(self, room):
        return rows_of(os.path.join(room, "collector"))


class Serving(Sending):
    """`serve`, at which a collector subscribes."""

    def send(self, program, store, port, fault):
        own = free_port()
        run = Run(program, store, ["serve", f"127.0.0.1:{own}", "pc1", "1"], fault)
        body = strangers.SUBSCRIBE.replace("127.0.0.1:9/", f"127.0.0.1:{port}/").replace("Application", "Security").encode()
        if run.listens():
            exchange(own, strangers.head_of("/wsman", f"Content-Length: {len(body)}") + body)
        return run.ended()


class Requesting(Command):
    """`request`, which asks a source that serves."""

    def prepare(self, program, room):
        self.port = free_port()
        sources = shapes.SOURCES[0].strip("«»").replace("dc1.example.org", f"127.0.0.1:{self.port}")
        self.before = [(["add"], shapes.BY_COLLECTOR.replace("◊", sources).encode())]
        super().prepare(program, room)
        os.mkdir(os.path.join(room, "source"))

    def act(self, program, room, fault=None):
        source = Run(program, os.path.join(room, "source"), ["serve", f"127.0.0.1:{self.port}", "pc1", "1000"])
        try:
            source.listens()
            return Run(program, os.path.join(room, "store"), ["request", "127.0.0.1:9", "1000"], fault).ended()
        finally:
            source.stop()

    def told(self, _wanted, ended, room):
        return b"leased" not in ended[1] or any(row[0] == 7 for row in self.rows(room))


def scenarios():
    added, held = (["add"], collect.SUBSCRIPTION.encode()), (["write"], "".join(EVENTS).encode())
    return [
        Adding("add", ["add"], collect.SUBSCRIPTION.encode()),
        Adding("remove", ["remove", "base"], before=[added]),
        Command("list", ["list"], before=[added]),
        Command("show", ["show"], before=[added]),
        Command("status", ["status", "base"], before=[added]),
        Command("events", ["events", "base", "pc1", "security"], before=[added]),
        Writing("write", ["write"]),
        Collecting("collect", ["collect"], before=[added]),
        Sending("forward", ["forward"], before=[held]),
        Requesting("request", ["request"]),
        Serving("serve", ["serve"], before=[held]),
        Command("check", ["check"], strangers.read("errors.query") + strangers.read("ten-events.lines")),
        Command("replay", ["replay"], strangers.read("losses-and-repeats.schedule")),
    ]


def fresh(template, room):
    """A room as it was prepared."""
    shutil.rmtree(room, ignore_errors=True)
    shutil.copytree(template, room)
    return room


def is_stated(ended, statuses):
    status, _, error = ended
    return status in statuses and re.fullmatch(MESSAGES[status], error.decode("utf-8", "replace"))


def judged(program, scenario, room, wanted, rows, fault):
    """Runs a scenario with a fault, and again without: its status, or nothing where the fault hit nothing."""
    ended = scenario.act(program, room, fault)
    if not fault.was_hit():
        return None
    if LOADING in ended[2]:
        return "loading"
    if not is_stated(ended, FAILED[fault.kind]):
        raise Wrong(f"it ended with {ended}")
    if not scenario.told(wanted, ended, room):
        raise Wrong(f"what it told doesn't stand: {ended}, {scenario.rows(room)}"[:1500])
    again = scenario.act(program, room)
    if not is_stated(again, AGAIN):
        raise Wrong(f"behind {ended} the next ended with {again}")
    if scenario.rows(room) != rows:
        raise Wrong(f"behind {ended} the next, which ended with {again}, left {scenario.rows(room)}"[:1500])
    return ended[0]


def series(program, scenario, title, step, make):
    """Runs a scenario with the faults of a kind, one after the other. Answers whether all ended well."""
    statuses, good = collections.Counter(), True
    with tempfile.TemporaryDirectory() as under:
        template, room = os.path.join(under, "template"), os.path.join(under, "room")
        os.mkdir(template)
        scenario.prepare(program, template)
        _, wanted, _ = scenario.act(program, fresh(template, room))
        rows, number = scenario.rows(room), 1
        while True:
            try:
                status = judged(program, scenario, fresh(template, room), wanted, rows, make(under, number))
            except Wrong as wrong:
                print(f"WRONG {title} {number}: {wrong}", flush=True)
                status, good = "wrong", False
            if status is None:
                break
            statuses[str(status)] += 1
            number += step
            if os.path.exists(os.path.join(under, "refused")):
                os.remove(os.path.join(under, "refused"))
    if statuses:
        print(f"{title}: " + ", ".join(f"{times} of {status}" for status, times in sorted(statuses.items())), flush=True)
    return good


def built_library(room):
    """The library that refuses an allocation, or nothing where there is no cc."""
    library = os.path.join(room, "refusing.so")
    if shutil.which("cc") is None:
        print("no cc: allocations aren't refused")
        return None
    subprocess.run(["cc", "-shared", "-fPIC", "-o", library, os.path.join(HERE, "refusing.c"), "-ldl"], check=True)
    return library


def main():
    program = os.path.abspath(sys.argv[1] if len(sys.argv) > 1 else os.path.join(HERE, "..", "crates", "wef", "out", "wef"))
    word = sys.argv[2] if len(sys.argv) > 2 else ""
    step = int(sys.argv[3]) if len(sys.argv) > 3 else 1
    good, began = True, time.monotonic()
    with tempfile.TemporaryDirectory() as room:
        library = built_library(room)
        for scenario in scenarios():
            for call in CALLS:
                if word in (title := f"{scenario.name} {call}"):
                    good &= series(program, scenario, title, 1, lambda under, number: CallFault(under, call, number))
            if library and word in (title := f"{scenario.name} memory"):
                good &= series(program, scenario, title, step, lambda under, number: MemoryFault(under, library, number))
    print(f"{time.monotonic() - began:.0f} seconds: {'all ended well' if good else 'NOT all ended well'}")
    return 0 if good else 1


if __name__ == "__main__":
    sys.exit(main())
