#!/usr/bin/env python3
"""Asks lists of queries of events in memory, of some 1 kB each: one of 20 and of 200 numbers joined by `or`, none of which an event
has, over 10,000 events; positions over events of 1,000 and of 2,000 children; and one of 16,000 and of 32,000 terms, and one with 32
brackets in one another. Prints events a second (the best of five runs) and the factors. It fails where 200 numbers take more than 11
times as long as 20, or twice as many children or terms more than 2.6 times as long.

    bench/queries.py [PROGRAM]        PROGRAM is crates/bench_layers/out/bench_layers where it isn't given
"""
import os
import subprocess
import sys

HERE = os.path.dirname(os.path.abspath(__file__))
TURNS = 5
MOST_NUMBERS, MOST_TWICE = 11.0, 2.6


def queries(text):
    return f"<QueryList><Query><Select Path='Security'>{text}</Select></Query></QueryList>"


def event(number, children=0):
    data = "".join(f'<Data Name="field{n}">{n * 37}</Data>' for n in range(children or 16))
    return (
        '<Event xmlns="http://schemas.microsoft.com/win/2004/08/events/event"><System><Provider Name="Microsoft-Windows-Security-Auditing" '
        f'Guid="54849625-5478-4994-a5ba-3e3b0328c30d"/><EventID>{number}</EventID><Version>2</Version><Level>0</Level><Task>12544</Task>'
        '<Opcode>0</Opcode><Keywords>0x8020000000000000</Keywords><TimeCreated SystemTime="2024-05-01T10:00:00.1234567Z"/>'
        "<EventRecordID>7</EventRecordID><Channel>Security</Channel><Computer>pc1.example.org</Computer></System>"
        f"<EventData>{data}</EventData></Event>"
    )


def seconds(program, text, events, times):
    """The best time of asking all events so often."""
    given = "\n".join([queries(text), *events]) + "\n"
    best = None
    for _ in range(TURNS):
        words = subprocess.run([program, "queries", str(times)], input=given, check=True, capture_output=True, text=True).stdout.split()
        if words[1:3] != ["of", str(len(events))]:
            sys.exit(" ".join(words))
        took = int(words[4]) / 1e6
        best = took if best is None else min(best, took)
    return best


def numbers(count):
    return "*[System[" + " or ".join(f"EventID={90000 + n}" for n in range(count)) + "]]"


def twice(program, title, small, great):
    """Measures a query of events and one of twice the size."""
    lesser, greater = seconds(program, *small), seconds(program, *great)
    print(f"{title}: {lesser:.3f} and {greater:.3f} s, a factor of {greater / lesser:.2f}")
    return greater / lesser <= MOST_TWICE


def main():
    program = sys.argv[1] if len(sys.argv) > 1 else os.path.join(HERE, "..", "crates", "bench_layers", "out", "bench_layers")
    events = [event(4624 + n % 40) for n in range(10_000)]
    size = sum(map(len, events)) / len(events)
    few, many = seconds(program, numbers(20), events, 10), seconds(program, numbers(200), events, 1)
    rate = len(events) * 10 / few
    print(f"20 numbers, events of {size:.0f} bytes: {rate:,.0f} a second, {rate * size / 1e6:.0f} MB a second")
    factor = many * 10 / few
    print(f"200 numbers: a factor of {factor:.2f}")
    good = factor <= MOST_NUMBERS
    place = "*[EventData[Data[position()>5][@Name='none']]]"
    good &= twice(program, "a position over 1,000 and 2,000 children", (place, [event(1, 1000)], 100), (place, [event(1, 2000)], 100))
    good &= twice(program, "16,000 and 32,000 terms", (numbers(16_000), events[:10], 1), (numbers(32_000), events[:10], 1))
    deep = "*[" * 32 + "none" + "]" * 32
    print(f"32 brackets in one another: {len(events) / seconds(program, deep, events, 1):,.0f} events a second")
    sys.exit(0 if good else "a factor is too great")


if __name__ == "__main__":
    main()
