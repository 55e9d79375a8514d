#!/usr/bin/env python3
"""Delivers batches of 20 events of some 1 kB to `wef collect`, over one kept connection on loopback, its store a real file; and in the same
run has Python's sqlite3 commit the same rows (WAL, synchronous FULL), one transaction a batch. Prints events a second, processor time a
batch, commits a second beside those of sqlite3, and peak memory, first into an empty store and then into one that holds many events; and
what `forward`, `show` and `events` take. Exits with 1 where an aim isn't met.

    bench/collect.py [PROGRAM [HELD]]     PROGRAM is crates/wef/out/wef where it isn't given; HELD is 100000
"""
import os
import socket
import sqlite3
import subprocess
import sys
import tempfile
import time

HERE = os.path.dirname(os.path.abspath(__file__))
BATCH = 20
SMALL = 1000
MEASURED = 200
# Of the pages of a store, some 2,000 are kept in memory: in MB, with what a batch takes.
CACHE = 16
PREPARED = 500
FORWARDED = 10_000
SOAP = "http://www.w3.org/2003/05/soap-envelope"
ADDRESSING = "http://schemas.xmlsoap.org/ws/2004/08/addressing"
MANAGEMENT = "http://schemas.dmtf.org/wbem/wsman/1/wsman.xsd"
ACTIONS = "http://schemas.dmtf.org/wbem/wsman/1/wsman"
SUBSCRIPTION = """<Subscription xmlns="http://schemas.microsoft.com/2006/03/windows/events/subscription"><SubscriptionId>base</SubscriptionId>
<SubscriptionType>SourceInitiated</SubscriptionType><Query><QueryList><Query Id="0"><Select Path="Security">*</Select></Query></QueryList></Query></Subscription>"""


def event(number, with_number=True):
    """An event as Windows writes it, of some 1 kB."""
    record = f"<EventRecordID>{number}</EventRecordID>" if with_number else ""
    data = "".join(f'<Data Name="Field{i}">value {number} {i} {"x" * 24}</Data>' for i in range(9))
    return (
        '<Event xmlns="http://schemas.microsoft.com/win/2004/08/events/event"><System><Provider Name="Microsoft-Windows-Security-Auditing"/>'
        f'<EventID>4624</EventID><Level>0</Level><Keywords>0x8020000000000000</Keywords><TimeCreated SystemTime="2024-05-01T08:00:01.1234567Z"/>{record}'
        f"<Channel>Security</Channel><Computer>pc1.example.org</Computer></System><EventData>{data}</EventData></Event>"
    )


def request(first, message, last=None):
    """The delivery of a batch of the records from this number on; it is refused where it says that it ends at a lower record."""
    events = [f"<![CDATA[{event(n)}]]>" for n in range(first, first + BATCH)]
    return request_of(events, last or first + BATCH - 1, message)


def request_of(events, last, message):
    """The delivery of events, each as it stands in a message, up to a record."""
    items = "".join(f'<w:Event Action="{ACTIONS}/Event">{one}</w:Event>' for one in events)
    mark = f'<BookmarkList><Bookmark Channel="Security" RecordId="{last}" IsCurrent="true"/></BookmarkList>'
    body = (
        f'<s:Envelope xmlns:s="{SOAP}" xmlns:a="{ADDRESSING}" xmlns:w="{MANAGEMENT}"><s:Header><a:Action s:mustUnderstand="true">{ACTIONS}/Events</a:Action>'
        f"<a:MessageID>uuid:0A0B0C0D-0000-0000-0000-{message:012X}</a:MessageID><w:Bookmark>{mark}</w:Bookmark><w:AckRequested/></s:Header>"
        f"<s:Body><w:Events>{items}</w:Events></s:Body></s:Envelope>"
    ).encode()
    head = f"POST /wsman/subscriptions/base/pc1 HTTP/1.1\r\nHost: localhost\r\nContent-Type: application/soap+xml;charset=UTF-8\r\nContent-Length: {len(body)}\r\n\r\n"
    return head.encode() + body


def read_response(stream):
    """The status of the next response, which is read whole."""
    status = stream.readline().split()[1]
    length = 0
    while (line := stream.readline()) not in (b"\r\n", b""):
        name, _, value = line.partition(b":")
        if name.lower() == b"content-length":
            length = int(value)
    stream.read(length)
    return status


def processor_seconds(pid):
    fields = open(f"/proc/{pid}/stat").read().rsplit(")", 1)[1].split()
    return (int(fields[11]) + int(fields[12])) / os.sysconf("SC_CLK_TCK")


def peak_megabytes(pid):
    for line in open(f"/proc/{pid}/status"):
        if line.startswith("VmHWM"):
            return int(line.split()[1]) / 1024
    return 0.0


class Collector:
    """`wef collect` in a folder, serving connections on a free port."""

    def __init__(self, program, folder, connections=1):
        with socket.socket() as probe:
            probe.bind(("127.0.0.1", 0))
            port = probe.getsockname()[1]
        self.address = f"127.0.0.1:{port}"
        self.process = self.started(program, folder, ["collect", self.address, str(connections)])
        line = self.process.stdout.readline()
        if not line.startswith(b"listening"):
            sys.exit(f"collect printed {line!r}")

    def started(self, program, folder, words):
        return subprocess.Popen([program, *words], cwd=folder, stdout=subprocess.PIPE)

    def connect(self):
        host, port = self.address.rsplit(":", 1)
        link = socket.create_connection((host, int(port)))
        link.setsockopt(socket.IPPROTO_TCP, socket.TCP_NODELAY, 1)
        return link

    def end(self):
        self.process.stdout.read()
        if self.process.wait() != 0:
            sys.exit(f"collect ended with {self.process.returncode}")


def prepared(batches, made):
    """What is made for each batch: ahead, so that the time for it isn't measured; but one by one where there are so many that they take much memory."""
    return [made(i) for i in range(batches)] if batches <= PREPARED else map(made, range(batches))


def requests_from(first, batches):
    """The deliveries of batches from a record on."""
    return prepared(batches, lambda i: request(first + i * BATCH, first + i * BATCH))


def deliver(program, folder, requests, wanted=b"200"):
    """Delivers batches: seconds, processor seconds, and peak memory in MB."""
    collector = Collector(program, folder)
    pid = collector.process.pid
    with collector.connect() as link, link.makefile("rb") as stream:
        before, began = processor_seconds(pid), time.perf_counter()
        for sent in requests:
            link.sendall(sent)
            if (status := read_response(stream)) != wanted:
                sys.exit(f"a batch was answered with {status}")
        took, worked, peak = time.perf_counter() - began, processor_seconds(pid) - before, peak_megabytes(pid)
    collector.end()
    return took, worked, peak


def commit_rows(path, first, batches):
    """Has sqlite3 commit the rows of as many batches: seconds."""
    database = sqlite3.connect(path, isolation_level=None)
    database.execute("PRAGMA journal_mode=WAL")
    database.execute("PRAGMA synchronous=FULL")
    database.execute(
        "CREATE TABLE IF NOT EXISTS kept (kind INTEGER NOT NULL, sub TEXT NOT NULL, source TEXT NOT NULL, channel TEXT NOT NULL, number INTEGER NOT NULL,"
        " value INTEGER NOT NULL, body TEXT NOT NULL, PRIMARY KEY (kind, sub, source, channel, number)) STRICT"
    )
    put = "INSERT OR REPLACE INTO kept VALUES (?, 'base', 'pc1', ?, ?, ?, ?)"
    texts = prepared(batches, lambda i: [event(first + i * BATCH + k) for k in range(BATCH)])
    began = time.perf_counter()
    for i, batch in enumerate(texts):
        at = first + i * BATCH
        database.execute("BEGIN IMMEDIATE")
        database.executemany(put, [(3, "security", at + k, 0, text) for k, text in enumerate(batch)])
        database.execute(put, (2, "security", 0, at + BATCH - 1, ""))
        database.execute(put, (6, "", 0, int(time.time() * 1000), ""))
        database.execute("COMMIT")
    took = time.perf_counter() - began
    database.close()
    return took


def run(program, folder, *words, text=b""):
    """Runs a command to its end: what it prints, seconds, processor seconds, and peak memory in MB."""
    began = time.perf_counter()
    with tempfile.TemporaryFile() as given, tempfile.TemporaryFile() as printed:
        given.write(text)
        given.seek(0)
        process = subprocess.Popen([program, *words], cwd=folder, stdin=given, stdout=printed)
        _, status, used = os.wait4(process.pid, 0)
        process.returncode = os.waitstatus_to_exitcode(status)
        if process.returncode != 0:
            sys.exit(f"{words[0]} ended with {process.returncode}")
        printed.seek(0)
        return printed.read(), time.perf_counter() - began, used.ru_utime + used.ru_stime, used.ru_maxrss / 1024


def shares(program, folder, at):
    """Tells what a batch costs that is refused once it is read, one that comes again, of which the moment alone is committed, and a new one."""
    below = at - BATCH
    kinds = {
        "read, and refused": ([request(at, at + i, last=1) for i in range(MEASURED)], b"500"),
        "read, and nothing new in it": ([request(below, at + i) for i in range(MEASURED)], b"200"),
        "read, taken and committed": (requests_from(at, MEASURED), b"200"),
    }
    for kind, (requests, wanted) in kinds.items():
        took, worked, _ = deliver(program, folder, requests, wanted)
        print(f"a batch that is {kind}: {took / MEASURED * 1000:.2f} ms, {worked / MEASURED * 1000:.2f} ms of processor time")


def main():
    program = os.path.abspath(sys.argv[1] if len(sys.argv) > 1 else os.path.join(HERE, "..", "crates", "wef", "out", "wef"))
    held = int(sys.argv[2]) if len(sys.argv) > 2 else 100_000
    missed = []

    def aim(what, is_met):
        if not is_met:
            missed.append(what)

    with tempfile.TemporaryDirectory() as room:
        run(program, room, "add", text=SUBSCRIPTION.encode())
        rows = os.path.join(room, "rows.db")
        paces = {}
        at = 1
        for target in (SMALL, held):
            if target > at:
                fill = (target - at + 1) // BATCH
                deliver(program, room, requests_from(at, fill))
                commit_rows(rows, at, fill)
                at += fill * BATCH
            took, worked, peak = deliver(program, room, requests_from(at, MEASURED))
            commits = commit_rows(rows, at, MEASURED)
            at += MEASURED * BATCH
            paces[target] = MEASURED / took
            _, _, _, opened = run(program, room, "list")
            print(
                f"held {target:,}: {MEASURED * BATCH / took:,.0f} events a second, {worked / MEASURED * 1000:.2f} ms of processor time a batch, {MEASURED / took:,.1f} commits a second"
                f" ({MEASURED / commits:,.1f} with sqlite3, {commits / took:.2f} of it), peak {peak:.0f} MB ({opened:.0f} MB to open the store)"
            )
            aim("no more memory than an opening takes, and the cache", peak <= opened + CACHE)
            aim("half of sqlite3's commits", commits / took >= 0.5)
        aim("0.8 of the pace with a small store", paces[held] >= 0.8 * paces[SMALL])
        shares(program, room, at)
        at += MEASURED * BATCH
        for words in (["show"], ["events", "base", "pc1", "security"]):
            text, took, worked, peak = run(program, room, *words)
            print(f"{words[0]} over {at - 1:,} events: {took:.2f} s, {worked:.2f} s of processor time, peak {peak:.0f} MB, {len(text) / 1e6:.1f} MB printed")

    with tempfile.TemporaryDirectory() as room:
        direct, collecting, writing = (os.path.join(room, name) for name in ("direct", "collector", "source"))
        for folder in (direct, collecting, writing):
            os.mkdir(folder)
        for folder in (direct, collecting):
            run(program, folder, "add", text=SUBSCRIPTION.encode())
        batches = FORWARDED // BATCH
        needed, _, _ = deliver(program, direct, requests_from(1, batches))
        lines = "".join(event(n, with_number=False) + "\n" for n in range(1, FORWARDED + 1))
        _, took, worked, peak = run(program, writing, "write", text=lines.encode())
        print(f"write of {FORWARDED:,} events: {took:.2f} s, {worked:.2f} s of processor time, peak {peak:.0f} MB")
        collector = Collector(program, collecting, batches + 1)
        text, took, worked, peak = run(program, writing, "forward", collector.address, "pc1", str(batches))
        collector.end()
        if text.count(b"acked 20") != batches:
            sys.exit(f"forward printed {text[-200:]!r}")
        print(f"forward of {FORWARDED:,} events: {took:.2f} s, {worked:.2f} s of processor time, peak {peak:.0f} MB; collect takes them in {needed:.2f} s")
        aim("forward in 1.5 times what collect needs", took <= 1.5 * needed)
    sys.exit("not met: " + "; ".join(missed) if missed else 0)


if __name__ == "__main__":
    main()
