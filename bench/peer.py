#!/usr/bin/env python3
"""Delivers batches of 20 events of some 1 kB over one kept connection to `wef collect` and to a collector in Rust (bench/peer: httparse,
roxmltree and rusqlite over the system's SQLite, one thread, write-ahead log, synchronous FULL, a transaction for each batch), in turn, each
over a store of its own on the same disk: events as sections of text as they come from Windows, and as escaped texts in their canonical form.
Prints events a second (the median of five turns) and, for each part of the work, what a batch takes of it: a message of another action for
the socket, a batch that is refused once it is read, one that brings nothing new, of which the moment alone is committed, and a new one. It
fails where `collect` takes fewer events a second than the peer.

    bench/peer.py [PROGRAM [BATCHES]]     PROGRAM is crates/wef/out/wef where it isn't given; BATCHES in each turn, 200

It builds the peer with cargo, from Debian's librust-httparse-dev, librust-roxmltree-dev and librust-rusqlite-dev, and fails where it can't.
"""
import os
import re
import statistics
import subprocess
import sys
import tempfile
import time

import collect

HERE = os.path.dirname(os.path.abspath(__file__))
PEER = os.path.join(HERE, "peer")
TURNS = 5
LEAST = 1.0
PARTS = ["another action", "read, and refused", "nothing new in it", "taken and committed"]


class Peer(collect.Collector):
    """The collector in Rust, in a folder."""

    def started(self, program, folder, words):
        command, address, connections = words
        return subprocess.Popen([program, address, connections, "rows.db"], cwd=folder, stdout=subprocess.PIPE)


def canonical(number):
    """The text of an event in the form in which a collector keeps it, escaped."""
    text = re.sub(r"<(\w+)([^<>]*)/>", r"<\1\2></\1>", collect.event(number))
    return text.replace("&", "&amp;").replace("<", "&lt;").replace(">", "&gt;")


def as_windows(number):
    return f"<![CDATA[{collect.event(number)}]]>"


def requests(form, part, first, batches):
    """The deliveries of a part, from a record on, and the status of their answers."""
    step = 0 if part == "nothing new in it" else collect.BATCH
    made = []
    for i in range(batches):
        at = first + i * step
        last = 1 if part == "read, and refused" else at + collect.BATCH - 1
        sent = collect.request_of([form(n) for n in range(at, at + collect.BATCH)], last, at + i)
        made.append(other_action(sent) if part == "another action" else sent)
    return made, b"200" if part in PARTS[2:] else b"500"


def other_action(sent):
    """A message of another action, without events."""
    body = sent.partition(b"\r\n\r\n")[2].replace(b"/wsman/Events<", b"/wsman/Others<", 1)
    body = body[: body.index(b"<w:Events>")] + body[body.index(b"</s:Body>") :]
    head = sent.partition(b"Content-Length")[0]
    return head + f"Content-Length: {len(body)}\r\n\r\n".encode() + body


def delivered(collector, sent, wanted):
    """The seconds that batches take, and those of the processor."""
    pid = collector.process.pid
    with collector.connect() as link, link.makefile("rb") as stream:
        before, began = collect.processor_seconds(pid), time.perf_counter()
        for one in sent:
            link.sendall(one)
            if (status := collect.read_response(stream)) != wanted:
                sys.exit(f"a batch was answered with {status}")
        took = time.perf_counter() - began
    return took, collect.processor_seconds(pid) - before


def turn(made, program, folder, form, first, batches):
    """What a batch of each part takes: seconds, and those of the processor."""
    collector, taken = made(program, folder, len(PARTS)), {}
    for part in PARTS[::-1]:
        # what brings nothing new comes behind what was taken
        sent, wanted = requests(form, part, first, batches)
        took, worked = delivered(collector, sent, wanted)
        taken[part] = took / batches, worked / batches
    collector.end()
    return taken


def compared(form, title, ends, batches):
    """Runs both ends in turn, and prints what each took. Answers how many times as many events a second the first takes."""
    results = {name: [] for name in ends}
    with tempfile.TemporaryDirectory() as room:
        for name, (_, program) in ends.items():
            os.mkdir(os.path.join(room, name))
        collect.run(ends["wef"][1], os.path.join(room, "wef"), "add", text=collect.SUBSCRIPTION.encode())
        for i in range(TURNS):
            for name, (made, program) in ends.items():
                results[name].append(turn(made, program, os.path.join(room, name), form, 1 + i * batches * collect.BATCH, batches))
    middle = {name: {part: [statistics.median(one[part][k] for one in turns) * 1e6 for k in (0, 1)] for part in PARTS} for name, turns in results.items()}
    paces = {name: collect.BATCH * 1e6 / parts[PARTS[-1]][0] for name, parts in middle.items()}
    print(f"{title}: " + ", ".join(f"{name} {pace:,.0f} events a second" for name, pace in paces.items()) + f", {paces['wef'] / paces['peer']:.2f} of the peer")
    for k, kind in ((0, "time"), (1, "processor time")):
        before = {name: 0.0 for name in ends}
        for part in PARTS:
            shares = ", ".join(f"{name} {middle[name][part][k]:,.0f} ({middle[name][part][k] - before[name]:+,.0f})" for name in ends)
            before = {name: middle[name][part][k] for name in ends}
            print(f"  {kind} of a batch, {part}: {shares} microseconds")
    return paces["wef"] / paces["peer"]


def main():
    program = os.path.abspath(sys.argv[1] if len(sys.argv) > 1 else os.path.join(HERE, "..", "crates", "wef", "out", "wef"))
    batches = int(sys.argv[2]) if len(sys.argv) > 2 else 200
    if subprocess.run(["cargo", "build", "--release", "--offline", "--quiet"], cwd=PEER).returncode != 0:
        sys.exit("the peer isn't built: it needs cargo and Debian's librust packages")
    ends = {"wef": (collect.Collector, program), "peer": (Peer, os.path.join(PEER, "target", "release", "peer"))}
    factors = [compared(form, title, ends, batches) for form, title in ((as_windows, "as Windows writes them"), (canonical, "canonical, escaped"))]
    sys.exit(0 if min(factors) >= LEAST else f"not met: {LEAST} of the peer's events a second")


if __name__ == "__main__":
    main()
