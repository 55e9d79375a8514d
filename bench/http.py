#!/usr/bin/env python3
"""Reads requests from memory: sixteen bodies of 1 MiB, one behind the other, and one of 16 MiB, that come at once, in pieces of 1,460
bytes, and in chunks of one byte; and a head of 65,000 bytes that comes byte by byte. Prints MB of the bodies a second (the best of
five runs) and the factor from a body of 1 MiB to one of 16 MiB. It fails where a factor is above 18 or the head takes more than two
seconds.

    bench/http.py [PROGRAM]        PROGRAM is crates/bench_layers/out/bench_layers where it isn't given
"""
import os
import subprocess
import sys

HERE = os.path.dirname(os.path.abspath(__file__))
TURNS = 5
MOST, LONGEST = 18.0, 2.0
SMALL, TIMES = 1 << 20, 16


def seconds(program, form, size, piece, count):
    """The best time of reading so many requests of this form, so many bytes at once."""
    best = None
    for _ in range(TURNS):
        words = subprocess.run([program, "http", form, str(size), str(piece), str(count)], check=True, capture_output=True, text=True).stdout.split()
        if words[0] != ("0" if form == "head" else str(size * count)):
            sys.exit(" ".join(words))
        took = int(words[2]) / 1e6
        best = took if best is None else min(best, took)
    return best


def main():
    program = sys.argv[1] if len(sys.argv) > 1 else os.path.join(HERE, "..", "crates", "bench_layers", "out", "bench_layers")
    good = True
    for title, form, piece in [("at once", "length", 0), ("in pieces of 1,460 bytes", "length", 1460), ("in chunks of one byte", "chunks", 0)]:
        many, one = seconds(program, form, SMALL, piece, TIMES), seconds(program, form, SMALL * TIMES, piece, 1)
        factor = one / many * TIMES
        print(f"bodies {title}: {SMALL * TIMES / 1e6 / many:,.0f} and {SMALL * TIMES / 1e6 / one:,.0f} MB a second, a factor of {factor:.1f}")
        good &= factor <= MOST
    took = seconds(program, "head", 65_000, 1, 1)
    print(f"a head of 65,000 bytes, byte by byte: {took:.3f} s")
    good &= took <= LONGEST
    sys.exit(0 if good else "a factor or a time is too great")


if __name__ == "__main__":
    main()
