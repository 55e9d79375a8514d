#!/usr/bin/env python3
"""Writes a schedule of about SIZE events, or lines, of SOURCES sources in turn.

    bench/schedules.py events SIZE SOURCES > FILE     batches of foreign sources
    bench/schedules.py lines SIZE SOURCES > FILE      writes, polls and deliveries of declared sources
    bench/schedules.py crashes SIZE SOURCES > FILE    the same, with a crash or a failure in every tenth line
    bench/schedules.py messages SIZE SOURCES > FILE   deliveries by number, of which some come again or count as lost

Or one of a source that writes SIZE records before it sends any:

    bench/schedules.py written SIZE ITEMS > FILE      and sends none
    bench/schedules.py backlog SIZE ITEMS > FILE      and then all of them, ITEMS in a batch
    bench/schedules.py begun SIZE ITEMS > FILE        and then the first 1,000 batches, each of them ten times
    bench/schedules.py settled SIZE ITEMS > FILE      and then all of them, in one line that settles
"""
import itertools
import sys

BATCH = 20


def batches(events, sources):
    """Batches of events, and the report."""
    yield "subscribe base 20 512000 900000 all application"
    next_number = [1] * sources
    for turn in range(events // BATCH):
        source = turn % sources
        first = next_number[source]
        next_number[source] = first + BATCH
        words = " ".join(f"e:application:{number}:a" for number in range(first, first + BATCH))
        yield f"batch base pc{source} {words} ack"
    yield "show"


def exchanges(lines, sources):
    """As many events written as a batch has, then the batch and its answer delivered, and the report."""
    yield "subscribe base 20 512000 900000 all application"
    for source in range(sources):
        yield from (f"source s{source} 1000", f"ask s{source}", "back 0", "back 0")
    done = 1 + 4 * sources
    for turn in range((lines - done + BATCH + 2) // (BATCH + 3)):
        source = turn % sources
        yield from [f"write s{source} application 1 4 a"] * BATCH
        yield from (f"poll s{source} base", "back 0", "back 0")
    yield "show"


# What goes wrong at a source while it writes, and at the collector after a source's turn.
SOURCE_TROUBLES = ("fail {} before", "fail {} after", "crash {}", "fail {} after")
COLLECTOR_TROUBLES = ("crash {}", "fail {} before", "crash {}", "stop {} after")


def crashes(lines, sources):
    """Turns of twenty lines: a source asks, writes, and sends twice, and something goes wrong in each tenth line."""
    yield "subscribe base 20 512000 900000 all application"
    yield from (f"source s{source} 1000" for source in range(sources))
    for turn in range((lines - sources) // 20):
        name = f"s{turn % sources}"
        trouble = turn // sources
        write = f"write {name} application 1 4 a"
        send = (f"poll {name} base", "back 0", "back 0")
        yield from (f"ask {name}", "back 0", "back 0", *[write] * 6)
        yield SOURCE_TROUBLES[trouble % 4].format(name)
        yield from (*[write] * 3, *send, *send)
        yield COLLECTOR_TROUBLES[trouble % 4].format("collector")
    yield "show"


class Numbers:
    """The numbers of messages, in the order in which they are sent."""

    def __init__(self):
        self.last = 0

    def answered(self):
        """The deliveries of the next message and of its answer, which comes behind it."""
        self.last += 2
        return (f"deliver {self.last - 1}", f"deliver {self.last}")


def sendings(name, turn, numbers):
    """A batch and its answer. In each tenth turn the batch comes again, in each tenth the source never hears the answer."""
    poll = f"poll {name} base"
    first, answer = numbers.answered()
    yield from (poll, first)
    if turn % 10 == 3:
        yield f"lost {name} base"
        again, answer = numbers.answered()
        yield from (poll, again)
    yield answer
    if turn % 10 == 7:
        numbers.last += 1
        yield "back 1"


def turns(sources):
    """Turns of the sources without an end: each writes a batch and sends it, and asks in every tenth of its turns."""
    numbers = Numbers()
    for turn in itertools.count():
        name = f"s{turn % sources}"
        if turn // sources % 10 == 0:
            yield from (f"ask {name}", *numbers.answered())
        yield from [f"write {name} application 1 4 a"] * BATCH
        yield from sendings(name, turn // sources, numbers)


def messages(lines, sources):
    """Turns of the sources, and the report."""
    yield "subscribe base 20 512000 900000 all application"
    yield from (f"source s{source} 1000" for source in range(sources))
    yield from itertools.islice(turns(sources), lines - sources - 2)
    yield "show"


# How many batches of a backlog are sent, and how often each of them, where it isn't sent to its end.
FIRST, AGAIN = 1000, 10


def written(records, items):
    """A source that has a session, and then writes more records than it sends."""
    yield f"subscribe base {items} 512000 900000 all application"
    yield from (f"source s0 {records}", "ask s0", "back 0", "back 0")
    yield from ["write s0 application 1 4 a"] * records


def backlog(records, items):
    """All records are sent, batch by batch, then the report."""
    yield from written(records, items)
    yield from ("poll s0 base", "back 0", "back 0") * (records // items)
    yield "show"


def begun(records, items):
    """The first batches are sent, each again where it counts as lost."""
    yield from written(records, items)
    yield from (*("poll s0 base", "lost s0 base") * (AGAIN - 1), "poll s0 base", "back 0", "back 0") * FIRST


def settled(records, items):
    """All records are sent in one line, then the report."""
    yield from written(records, items)
    yield from ("settle", "show")


KINDS = {
    "events": batches,
    "lines": exchanges,
    "crashes": crashes,
    "messages": messages,
    "written": written,
    "backlog": backlog,
    "begun": begun,
    "settled": settled,
}

if __name__ == "__main__":
    kind, size, sources = KINDS[sys.argv[1]], int(sys.argv[2]), int(sys.argv[3])
    sys.stdout.writelines(f"{line}\n" for line in kind(size, sources))
