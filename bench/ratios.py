#!/usr/bin/env python3
"""Counts the instructions that the program needs for what is ordinary, beside an older one, both in one run: for an event of a batch in a
schedule, for an event that `show` reports, for an event that `check` asks a list of queries of, and for an event that `collect` takes. Each is the
difference between two sizes, so that starting the program doesn't count. What the older program can't do is left out. It needs valgrind.

    bench/ratios.py PROGRAM OLDER [EVENTS OLDER_EVENTS]

Beside a program that knows `check` it fails where `check` or `collect` isn't 1.5 times as fast; beside one that doesn't, where batches
aren't 2.5 times as fast, or `show` 4 times. EVENTS is crates/bench_events as this checkout builds it, OLDER_EVENTS the same source as the older
one does (laid into its crates/, with its line of crates.txt): with these it also counts for an event as Windows writes it that is read, and for
one that is had again from its canonical text, and fails where they aren't 1.5 and 3 times as fast.
"""
import os
import re
import subprocess
import sys
import tempfile

import collect
import schedules

EVENTS = 2000
SHOWS = 5
LIST = "<QueryList><Query><Select Path='Security'>*[System[(EventID=4624 or EventID=4625) and (Level=0 or Level=4)]]</Select></Query></QueryList>"


def counted(words, text):
    """Runs a command under valgrind with this input, a file, since what reading costs depends on the pieces that a pipe gives: its instructions."""
    tool = ["valgrind", "--tool=callgrind", "--callgrind-out-file=/dev/null", *words]
    with tempfile.TemporaryFile() as given:
        given.write(text.encode())
        given.seek(0)
        ended = subprocess.run(tool, stdin=given, stdout=subprocess.DEVNULL, stderr=subprocess.PIPE)
    if ended.returncode != 0:
        sys.exit(f"{' '.join(words)} ended with {ended.returncode}")
    return instructions_in(ended.stderr)


def instructions_in(told):
    return int(re.search(rb"Collected : (\d+)", told)[1])


def of_lines(program, word, lines):
    return counted([program, word], "".join(f"{line}\n" for line in lines))


def batches(program):
    few, many = (list(schedules.batches(events, 1))[:-1] for events in (EVENTS, 2 * EVENTS))
    return (of_lines(program, "replay", many) - of_lines(program, "replay", few)) / EVENTS


def shows(program):
    lines = list(schedules.batches(EVENTS, 1))
    return (of_lines(program, "replay", [*lines, *["show"] * SHOWS]) - of_lines(program, "replay", lines)) / (EVENTS * SHOWS)


def checks(program):
    few, many = ([LIST, *map(collect.event, range(1, events + 1))] for events in (EVENTS, 2 * EVENTS))
    return (of_lines(program, "check", many) - of_lines(program, "check", few)) / EVENTS


def of_events(program, *words):
    """The instructions for one event more, by the program that reads events."""
    few, many = ("".join(f"{collect.event(number)}\n" for number in range(1, events + 1)) for events in (EVENTS, 2 * EVENTS))
    return (counted([program, *words], many) - counted([program, *words], few)) / EVENTS


def held(program):
    return of_events(program, "judge") - of_events(program)


class Counted(collect.Collector):
    """A collector under valgrind."""

    def started(self, program, folder, words):
        tool = ["valgrind", "--tool=callgrind", "--callgrind-out-file=/dev/null", program, *words]
        return subprocess.Popen(tool, cwd=folder, stdout=subprocess.PIPE, stderr=subprocess.PIPE)

    def instructions(self):
        return instructions_in(self.process.communicate()[1])


def collects(program):
    few, many = (deliveries(program, batches) for batches in (20, 60))
    return (many - few) / (40 * collect.BATCH)


def deliveries(program, batches):
    """The instructions for so many batches, into an empty store."""
    with tempfile.TemporaryDirectory() as room:
        collect.run(program, room, "add", text=collect.SUBSCRIPTION.encode())
        collector = Counted(program, room)
        with collector.connect() as link, link.makefile("rb") as stream:
            for sent in collect.requests_from(1, batches):
                link.sendall(sent)
                if (status := collect.read_response(stream)) != b"200":
                    sys.exit(f"a batch was answered with {status}")
        return collector.instructions()


def knows(program, word):
    with tempfile.TemporaryDirectory() as room:
        return subprocess.run([program, word], cwd=room, stdin=subprocess.DEVNULL, stderr=subprocess.DEVNULL).returncode != 2


def main():
    program, older, *of_each = map(os.path.abspath, sys.argv[1:5])
    rows = [("an event of a batch", batches, 2.5), ("an event that show reports", shows, 4.0)]
    missed = []
    if knows(older, "check"):
        rows = [(what, cost, 0.0) for what, cost, _ in rows] + [("an event that check is asked of", checks, 1.5), ("an event that collect takes", collects, 1.5)]
    rows = [(what, cost, least, older, program) for what, cost, least in rows]
    if len(of_each) == 2:
        rows += [(what, cost, least, *reversed(of_each)) for what, cost, least in [("an event that is read", of_events, 1.5), ("an event had again from its text", held, 3.0)]]
    for what, cost, least, beside, ours in rows:
        before, now = cost(beside), cost(ours)
        print(f"{what}: {before:,.0f} instructions before, {now:,.0f} now, {before / now:.2f} times as fast")
        if before < least * now:
            missed.append(what)
    sys.exit("not met: " + "; ".join(missed) if missed else 0)


if __name__ == "__main__":
    main()
