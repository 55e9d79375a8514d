#!/usr/bin/env python3
"""Measures `made 7 SIZE` beside `replay` of the schedule that it stands for, for SIZE 10,000 and 100,000: events a second of processor time
(the best of three runs), and the peak memory for each line. It fails where 100,000 take more than 13 times as long as 10,000, where W isn't
H and D together, or isn't the number of `wrote` lines that the replay prints.

    bench/made.py [PROGRAM]            PROGRAM is crates/wef/out/wef where it isn't given
    bench/made.py schedule SEED SIZE   writes the schedule that a seed makes
"""
import os
import subprocess
import sys
import tempfile

SEED, SMALL, GREAT = 7, 10_000, 100_000
MOST_FACTOR, TURNS = 13.0, 3
MULTIPLIER, INCREMENT, MODULUS = 6364136223846793005, 1442695040888963407, 1 << 64


def draws(seed, size):
    """The numbers that a seed gives, so many: of each state of the generator behind the seed the highest 16 bits."""
    state = seed
    for _ in range(size):
        state = (state * MULTIPLIER + INCREMENT) % MODULUS
        yield state >> 48


def drawn_lines(drawn):
    """The lines that a number stands for."""
    source, rest, kind = f"s{drawn // 10 % 4}", drawn // 40, drawn % 10
    if kind < 6:
        return [f"write {source} {('application', 'system')[rest % 2]} 1 4 x"]
    if kind == 6:
        return [f"ask {source}", "back 0", "back 0"]
    if kind == 7:
        return [f"poll {source} made"]
    if kind == 8:
        return [f"back {rest}"]
    return [(f"crash {source}", "crash collector", "fail collector after", f"lost {source} made")[rest % 4]]


def schedule(seed, size):
    """The schedule that a seed makes, line by line."""
    yield from (f"source s{number} 64" for number in range(4))
    yield "subscribe made 20 512000 900000 all application system"
    for drawn in draws(seed, size):
        yield from drawn_lines(drawn)
    yield from ("calm", "settle")


def run(words, given, out):
    """The seconds of processor time of one run, and its peak memory in bytes."""
    given.seek(0)
    out.seek(0)
    out.truncate()
    child = subprocess.Popen(words, stdin=given, stdout=out)
    _, status, usage = os.wait4(child.pid, 0)
    if status != 0:
        sys.exit(f"{' '.join(words)} ended with status {os.waitstatus_to_exitcode(status)}")
    return usage.ru_utime + usage.ru_stime, usage.ru_maxrss * 1024


def measured(words, text):
    """The least seconds, the greatest peak memory, and what was printed."""
    with tempfile.TemporaryFile() as given, tempfile.TemporaryFile() as out:
        given.write(text)
        runs = [run(words, given, out) for _ in range(TURNS)]
        out.seek(0)
        return min(seconds for seconds, _ in runs), max(peak for _, peak in runs), out.read()


def compare(program, size):
    """Measures one size. Answers the seconds that `made` takes, and whether its numbers are right."""
    lines = list(schedule(SEED, size))
    text = "".join(line + "\n" for line in lines).encode()
    made, made_peak, summary = measured([program, "made", str(SEED), str(size)], b"")
    replayed, replayed_peak, printed = measured([program, "replay"], text)
    written, held, dropped = (int(line.split()[1]) for line in summary.decode().splitlines())
    wrote = sum(line.startswith(b"wrote ") for line in printed.splitlines())
    for name, seconds, peak in (("made", made, made_peak), ("replay", replayed, replayed_peak)):
        print(f"{name:>6} {SEED} {size:>7,}: {written / seconds:>9,.0f} events a second, {peak / len(lines):>6,.0f} bytes a line")
    print(f"              written {written}, held {held}, dropped {dropped}")
    return made, written == held + dropped == wrote


def main():
    if sys.argv[1:2] == ["schedule"]:
        sys.stdout.writelines(line + "\n" for line in schedule(int(sys.argv[2]), int(sys.argv[3])))
        return
    here = os.path.dirname(os.path.abspath(__file__))
    program = sys.argv[1] if len(sys.argv) > 1 else os.path.join(here, "../crates/wef/out/wef")
    small, right = compare(program, SMALL)
    great, right_too = compare(program, GREAT)
    print(f"from {SMALL:,} to {GREAT:,}: {great / small:.1f} times as long")
    if great / small > MOST_FACTOR or not (right and right_too):
        sys.exit("made: out of bounds")


if __name__ == "__main__":
    main()
