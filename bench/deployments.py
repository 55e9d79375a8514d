#!/usr/bin/env python3
"""Runs all commands that keep a store over real folders, two of sources and one of a collector, in random order: runs are killed at random
moments, and between the ends proxies cut connections and lose replies. Whenever it is looked at, and in the end, the collector has to hold,
for a subscription that sources begin and one that it begins itself, of each source exactly the history that `write` printed, up to the
bookmark, once and in order, but for the records that are marked; marked are those alone that are too large to send; and each batch whose
acknowledgement a proxy saw lies within the bookmark. In the end all of the history is there. Then three premises are broken on purpose, a
store that is put back from a copy, one name in two folders and a forged acknowledgement, and what that spoils is shown. Exits with 1 where
the collector holds anything else, and where a broken premise spoils nothing.

    bench/deployments.py [PROGRAM [RUNS [SEED]]]     PROGRAM is crates/wef/out/wef where it isn't given; RUNS is 200
"""
import collections
import os
import random
import re
import shutil
import socket
import subprocess
import sys
import tempfile
import threading
import time

import shapes

HERE = os.path.dirname(os.path.abspath(__file__))
# A subscription that the collector begins names its sources by their hosts.
SOURCES = ["127.0.0.1", "127.0.0.2"]
NAMES = ["base", "begun"]
SECONDS = 60
# So long a proxy waits for either end.
WAIT = 10
# So often the collector asks in the end: each time its sources send for as long as the lease is theirs.
TURNS = 40
# A lease ends so soon that a source is asked again a few runs later.
LEASE = 2
EVENT = (
    "<Event xmlns='http://schemas.microsoft.com/win/2004/08/events/event'><System><Level>4</Level><Channel>Application</Channel></System>"
    "<EventData><Data>{}</Data></EventData></Event>\n"
)
# In a batch of at most 8,192 bytes an event has less than half of them.
LARGE = "x" * 6000
SUBSCRIPTION = (
    '<Subscription xmlns="http://schemas.microsoft.com/2006/03/windows/events/subscription"><SubscriptionId>{}</SubscriptionId>'
    '<SubscriptionType>{}</SubscriptionType><Delivery Mode="Push"><Batching><MaxItems>3</MaxItems></Batching></Delivery>'
    f"<Expires>PT{LEASE}S</Expires><Query><QueryList><Query><Select Path=\"Application\">*</Select></Query></QueryList></Query>{{}}"
    "<MaxEnvelopeSize>8192</MaxEnvelopeSize></Subscription>"
)


class Proxy:
    """Passes connections to whoever listens behind it, some of them not whole. It notes up to which record each batch was acknowledged."""

    def __init__(self, chance, host="127.0.0.1", port=0):
        self.chance = chance
        self.to = None
        self.clean = False
        self.forges = 0
        self.acknowledged = collections.Counter()
        self.listener = socket.create_server((host, port))
        self.port = self.listener.getsockname()[1]
        self.address = f"{host}:{self.port}"
        threading.Thread(target=self.serve, daemon=True).start()

    def serve(self):
        while True:
            near, _ = self.listener.accept()
            threading.Thread(target=self.join, args=(near, self.fate()), daemon=True).start()

    def fate(self):
        """How much of a connection is passed: all of it, all but the reply, or a part of the request."""
        return "whole" if self.clean else self.chance.choices(["whole", "no reply", "cut"], [7, 2, 1])[0]

    def behind(self):
        """A connection to whoever listens, which is waited for."""
        until = time.monotonic() + WAIT
        while self.to is None and time.monotonic() < until:
            time.sleep(0.01)
        return socket.create_connection(self.to or ("127.0.0.1", 1), timeout=WAIT)

    def join(self, near, fate):
        passed = {"sent": b"", "heard": b""}
        try:
            with near:
                near.settimeout(WAIT)
                if self.forges and self.forge(near, passed):
                    return
                with self.behind() as far:
                    far.sendall(passed["sent"])
                    back = threading.Thread(target=self.pass_on, args=(far, near, passed, "heard", 0 if fate == "no reply" else None), daemon=True)
                    back.start()
                    self.pass_on(near, far, passed, "sent", self.chance.randrange(2000) if fate == "cut" else None)
                    back.join(WAIT)
        except OSError:
            pass
        self.note(passed)

    def pass_on(self, source, sink, passed, way, most):
        """Passes bytes on until there are no more, or so many were; what isn't passed any more goes nowhere."""
        try:
            while data := source.recv(65536):
                room = len(data) if most is None else max(0, most - len(passed[way]))
                passed[way] += data if way == "heard" else data[:room]
                sink.sendall(data[:room])
                if room < len(data):
                    break
        except OSError:
            pass
        finally:
            for end in (source, sink):
                try:
                    end.shutdown(socket.SHUT_RDWR)
                except OSError:
                    pass

    def forge(self, near, passed):
        """Acknowledges a batch that nobody takes; what else comes is passed on."""
        while b"</s:Envelope>" not in passed["sent"] and (data := near.recv(65536)):
            passed["sent"] += data
        if b"POST /wsman/subscriptions/" not in passed["sent"]:
            return False
        self.forges -= 1
        answer = shapes.ACK.replace("MESSAGE", re.search(rb"MessageID>([^<]*)<", passed["sent"])[1].decode()).encode()
        near.sendall(shapes.RESPONSE_HEAD.encode() + f"Content-Length: {len(answer)}\r\n\r\n".encode() + answer)
        near.shutdown(socket.SHUT_RDWR)
        return True

    def note(self, passed):
        """Notes the batch of a connection that was acknowledged, whether or not the reply was passed on."""
        path = re.match(rb"POST /wsman/subscriptions/([^/ ]+)/([^/ ]+) ", passed["sent"])
        marks = re.findall(rb'RecordId="(\d+)"', passed["sent"].partition(b"<s:Body>")[0])
        if path and marks and passed["heard"].startswith(b"HTTP/1.1 200 ") and b"wsman/1/wsman/Ack<" in passed["heard"]:
            at = path[1].decode(), path[2].decode()
            self.acknowledged[at] = max(self.acknowledged[at], int(marks[-1]))


class History:
    """All that a source's `write` committed, by what it printed."""

    def __init__(self):
        self.records = []

    def written(self, events, lines):
        """Takes the records of a run; those that a killed one committed and didn't print come first."""
        numbers = [int(line.split()[1]) for line in lines]
        assert numbers == list(range(len(self.records) + 1, len(self.records) + 1 + len(numbers))), numbers
        self.records += events[: len(numbers)]


class Deployment:
    def __init__(self, program, room, chance):
        self.program, self.room, self.chance = program, room, chance
        self.proxy = Proxy(chance)
        self.fronts = {}
        for name in SOURCES:
            self.fronts[name] = Proxy(chance, name, self.fronts[SOURCES[0]].port if self.fronts else 0)
        self.collector = None
        self.counts = collections.Counter()
        self.count = 0
        self.histories = {name: History() for name in SOURCES}
        for folder in ["collector", *SOURCES]:
            os.mkdir(os.path.join(room, folder))

    def begin(self, folder, *words, **streams):
        self.counts[words[0]] += 1
        return subprocess.Popen([self.program, *words], cwd=os.path.join(self.room, folder), stdout=subprocess.PIPE, stderr=subprocess.STDOUT, **streams)

    def run(self, folder, words, given=b"", kill=0.0):
        """Runs a command, maybe killed in it; its whole lines, and whether it was killed."""
        process = self.begin(folder, *words, stdin=subprocess.PIPE)
        if self.chance.random() < kill:
            try:
                process.stdin.write(given)
                process.stdin.close()
            except OSError:
                pass
            time.sleep(self.chance.random() * 0.05)
            process.kill()
            out = process.stdout.read()
            process.wait()
            return out.decode().split("\n")[:-1], True
        return process.communicate(given, timeout=SECONDS)[0].decode().split("\n")[:-1], False

    def listening(self, folder, host, *words):
        """A command that listens at a port that is free, and the port."""
        with socket.create_server((host, 0)) as free:
            port = free.getsockname()[1]
        process = self.begin(folder, words[0], f"{host}:{port}", *words[1:])
        line = process.stdout.readline().decode()
        assert line.startswith("listening "), line
        threading.Thread(target=process.stdout.read, daemon=True).start()
        return process, (host, port)

    def events(self, many):
        """So many events that weren't there yet, some of them too large to send."""
        texts = []
        for _ in range(many):
            self.count += 1
            texts.append(f"e{self.count}" + (LARGE if self.chance.random() < 0.08 else ""))
        return texts

    def write(self, name, many, kill=0.0):
        """Writes events; behind a killed run one that isn't killed tells by its number how far that came."""
        history = self.histories[name]
        events = self.events(many)
        lines, killed = self.run(name, ["write"], "".join(map(EVENT.format, events)).encode(), kill)
        history.written(events, lines)
        if killed:
            more = self.events(1)
            line = self.run(name, ["write"], EVENT.format(more[0]).encode())[0]
            unsaid = int(line[0].split()[1]) - 1 - len(history.records)
            assert 0 <= unsaid <= len(events) - len(lines), f"{line} behind {len(history.records)} records, and at most {len(events) - len(lines)} more"
            history.records += events[len(lines) : len(lines) + unsaid]
            history.written(more, line)

    def collect(self):
        """Begins a collector, where none is on."""
        if self.collector is None or self.collector.poll() is not None:
            self.collector, self.proxy.to = self.listening("collector", "127.0.0.1", "collect", "100000")

    def end_collector(self):
        self.proxy.to = None
        if self.collector is not None:
            self.collector.kill()
            self.collector.wait()
            self.collector = None

    def forward(self, folder, name, many, kill=0.0):
        self.collect()
        return self.run(folder, ["forward", self.proxy.address, name, str(many)], kill=kill)[0]

    def request(self, names, kill=0.0):
        """Has the collector ask the sources that serve, and begins to listen. Each source sends behind the connection, and is killed in that or not."""
        self.end_collector()
        sources = []
        for name in names:
            process, self.fronts[name].to = self.listening(name, name, "serve", name, "1")
            sources.append((name, process))
        lines = self.run("collector", ["request", self.proxy.address, "100"], kill=kill)[0]
        self.collect()
        for name, process in sources:
            if not any(f" {name} leased" in line for line in lines):
                self.knock(self.fronts[name].to)
            try:
                process.wait(self.chance.random() * 0.3 if self.chance.random() < kill else SECONDS)
            except subprocess.TimeoutExpired:
                process.kill()
                process.wait()
            self.fronts[name].to = None
        return lines

    @staticmethod
    def knock(address):
        """A connection that brings nothing, for a source that wasn't asked, as far as its run can tell."""
        try:
            socket.create_connection(address).close()
        except ConnectionRefusedError:
            pass

    def look(self, *words):
        self.end_collector()
        return self.run("collector", list(words))[0]

    def any_run(self):
        name = self.chance.choice(SOURCES)
        match self.chance.choices(["write", "forward", "request", "look", "other", "kill"], [12, 12, 4, 4, 2, 4])[0]:
            case "write":
                self.write(name, self.chance.randint(1, 8), kill=0.3)
            case "forward":
                self.forward(name, name, self.chance.randint(1, 20), kill=0.3)
            case "request":
                self.request(SOURCES, kill=0.3)
            case "look":
                self.look(*self.chance.choice([["list"], ["status", self.chance.choice(NAMES)]]))
                assert all([self.is_good(one, source) for one in NAMES for source in SOURCES])
            case "other":
                self.end_collector()
                document = SUBSCRIPTION.format(f"other{self.count}", "SourceInitiated", "")
                self.run("collector", ["add"], document.encode(), kill=0.3)
                self.run("collector", ["remove", f"other{self.count}"], kill=0.3)
            case "kill":
                self.end_collector()

    def report(self, name, source):
        """The bookmark and the marks of a subscription's source, by `show`."""
        at, bookmark, marks = (None, None), 0, set()
        for line in self.look("show"):
            words = line.split()
            if line.startswith("subscription "):
                at = words[1], None
            elif line.startswith(" source "):
                at = at[0], words[1]
            elif at == (name, source) and words[0] == "channel":
                bookmark = int(words[3])
            elif at == (name, source) and words[0] == "dropped":
                for run in words[1:]:
                    first, _, last = run.partition("-")
                    marks |= set(range(int(first), int(last or first) + 1))
        return bookmark, marks

    def held(self, name, source):
        """The events that are held, by number; a large one by its name alone."""
        lines = self.look("events", name, source, "application")
        assert lines[-1] == "end", lines[-1:]
        return [(int(line.split()[1]), re.search(r"<Data>(\w+)</Data>", line)[1]) for line in lines[:-1]]

    def is_good(self, name, source, is_all=False):
        """Whether what is held is the history up to the bookmark, but for marked records, and as far as was acknowledged; or all of it."""
        held, (bookmark, marks), records = self.held(name, source), self.report(name, source), self.histories[source].records
        wanted = [(number, data) for number, data in enumerate(records[:bookmark], 1) if number not in marks]
        acknowledged = max([self.proxy.acknowledged[(name, source)], *[front.acknowledged[(name, source)] for front in self.fronts.values()]])
        faults = [
            (held != wanted, f"held isn't the history up to {bookmark}: {sorted(set(held) ^ set(wanted))[:5]}"),
            (bookmark > len(records), f"the bookmark {bookmark} is above {len(records)} records"),
            (acknowledged > bookmark, f"acknowledged up to {acknowledged}, the bookmark is {bookmark}"),
            (any(LARGE not in records[mark - 1] for mark in marks), f"marked without a reason: {sorted(marks)}"),
            (is_all and bookmark != len(records), f"the bookmark {bookmark} isn't all of {len(records)} records"),
        ]
        said = [text for is_bad, text in faults if is_bad]
        if said or is_all:
            told = f"{len(records)} records, bookmark {bookmark}, acknowledged up to {acknowledged}, {len(held)} held, {len(marks)} marked"
            print(f"{name} {source}: {told}: {'; '.join(said) or 'each once and in order'}")
        return not said

    def settle(self):
        """Lets all go through."""
        for proxy in [self.proxy, *self.fronts.values()]:
            proxy.clean = True
        for name in SOURCES:
            self.write(name, 1)
            lines = self.forward(name, name, 100000)
            assert lines and lines[-1] == "done", lines[-3:]
        for _ in range(TURNS):
            if all(self.report("begun", name)[0] == len(self.histories[name].records) for name in SOURCES):
                break
            time.sleep(LEASE + 0.1)
            self.request(SOURCES)


def main():
    program = os.path.realpath(sys.argv[1] if len(sys.argv) > 1 else os.path.join(HERE, "../crates/wef/out/wef"))
    runs = int(sys.argv[2]) if len(sys.argv) > 2 else 200
    seed = int(sys.argv[3]) if len(sys.argv) > 3 else random.randrange(1000000)
    print(f"seed {seed}, {runs} runs")
    with tempfile.TemporaryDirectory() as room:
        deployment = Deployment(program, room, random.Random(seed))
        try:
            sources = "".join(f"<EventSource><Address>{front.address}</Address></EventSource>" for front in deployment.fronts.values())
            deployment.run("collector", ["add"], SUBSCRIPTION.format("base", "SourceInitiated", "").encode())
            deployment.run("collector", ["add"], SUBSCRIPTION.format("begun", "CollectorInitiated", f"<EventSources>{sources}</EventSources>").encode())
            for _ in range(runs):
                deployment.any_run()
            deployment.settle()
            good = all([deployment.is_good(name, source, True) for name in NAMES for source in SOURCES])
            broken = all([spoils(deployment) for spoils in (put_back, two_folders, forged)])
        finally:
            deployment.end_collector()
        print(", ".join(f"{count} of {word}" for word, count in sorted(deployment.counts.items())))
    return 0 if good and broken else 1


def put_back(deployment):
    """A store that is put back gives numbers again: what is written under them then is lost."""
    source = SOURCES[0]
    folder = os.path.join(deployment.room, source)
    shutil.copytree(folder, folder + ".copy")
    deployment.write(source, 2)
    deployment.forward(source, source, 100000)
    shutil.rmtree(folder)
    os.rename(folder + ".copy", folder)
    lines, _ = deployment.run(source, ["write"], EVENT.format("again").encode())
    deployment.forward(source, source, 100000)
    is_held = "again" in [data for _, data in deployment.held("base", source)]
    print(f"a store that is put back: number {lines[0].split()[1]} is given again, its event is {'held' if is_held else 'lost'}")
    return not is_held


def two_folders(deployment):
    """A second folder has numbers of its own: what is written there is lost."""
    source = SOURCES[1]
    os.mkdir(os.path.join(deployment.room, "second"))
    deployment.run("second", ["write"], EVENT.format("second").encode())
    deployment.forward("second", source, 100000)
    is_held = "second" in [data for _, data in deployment.held("base", source)]
    print(f"one name in two folders: the event of the second is {'held' if is_held else 'lost'}")
    return not is_held


def forged(deployment):
    """An acknowledgement that the collector didn't give has the source go on: what it sent is lost, and isn't marked."""
    source = SOURCES[1]
    deployment.run(source, ["write"], "".join(map(EVENT.format, ["f1", "f2", "f3", "f4"])).encode())
    deployment.proxy.forges = 1
    deployment.forward(source, source, 100000)
    data = [data for _, data in deployment.held("base", source)]
    print(f"a forged acknowledgement of three events: the first is {'held' if 'f1' in data else 'lost'}, the fourth is {'held' if 'f4' in data else 'lost'}")
    return "f1" not in data and "f4" in data


if __name__ == "__main__":
    sys.exit(main())
