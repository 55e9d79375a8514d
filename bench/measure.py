#!/usr/bin/env python3
"""Runs the program on schedules of two sizes, and compares their processor times and their peak memory. With a second program
it compares the two as well."""
import os
import subprocess
import sys
import tempfile

SMALL, GREAT = 10_000, 100_000
MOST_FACTOR, MOST_BYTES = 13.0, 2048
TURNS = 5
MEBIBYTE = 1 << 20

# A backlog is sent in batches of so many records. Its first 1,000 batches of one record are sent ten times each, and a poll
# in front of ten times as many records takes so many times as long at most.
BACKLOG_ITEMS, BEGUN_POLLS, MOST_POLL_FACTOR = 20, 10_000, 1.3

# What has a backlog sent: its kind of schedule, and what becomes of the records there.
BACKLOGS = (("backlog", "sent"), ("settled", "settled"))

# A schedule of messages takes so many times as long, and as much memory, as with an older program at most.
MOST_OLDER_FACTOR = 2.5


# Each kind of schedule: its name, what it counts, its numbers of sources, and whether its memory is bounded.
KINDS = (
    ("events", "events", (1, 50), True),
    ("lines", "lines", (10,), False),
    ("crashes", "lines with crashes", (10,), False),
    ("messages", "lines of messages", (10,), False),
)


def schedule(kind, size, sources, folder):
    path = os.path.join(folder, f"{kind}-{size}-{sources}")
    script = os.path.join(os.path.dirname(os.path.abspath(__file__)), "schedules.py")
    with open(path, "wb") as file:
        subprocess.run([sys.executable, script, kind, str(size), str(sources)], stdout=file, check=True)
    return path


def run(program, path):
    """The seconds of processor time of one run, and its peak memory in bytes."""
    with open(path, "rb") as stdin, open(os.devnull, "wb") as stdout:
        child = subprocess.Popen([program, "replay"], stdin=stdin, stdout=stdout)
        _, status, usage = os.wait4(child.pid, 0)
    if status != 0:
        sys.exit(f"the program ended with status {os.waitstatus_to_exitcode(status)}")
    return usage.ru_utime + usage.ru_stime, usage.ru_maxrss * 1024


def meets(program, kind, what, sources, bounded, folder):
    """Measures one kind of schedule with so many sources. Answers whether it meets its bounds."""
    times = {}
    good = True
    for size in (SMALL, GREAT):
        path = schedule(kind, size, sources, folder)
        runs = [run(program, path) for _ in range(TURNS)]
        times[size] = min(seconds for seconds, _ in runs)
        memory = max(peak for _, peak in runs) / size
        good = good and (memory <= MOST_BYTES or not bounded)
        print(f"{size:>7} {what}, {sources:>2} sources: {size / times[size]:>9,.0f} {what} a second, {memory:>6,.0f} bytes for each")
    factor = times[GREAT] / times[SMALL]
    print(f"        from {SMALL:,} to {GREAT:,} {what}, {sources:>2} sources: {factor:.1f} times as long")
    return good and factor <= MOST_FACTOR


def least(program, paths):
    """The least seconds of processor time of each of some schedules, run in turn, and the peak memory of the last."""
    runs = [[run(program, path) for path in paths] for _ in range(TURNS)]
    return [min(turn[place][0] for turn in runs) for place in range(len(paths))], max(turn[-1][1] for turn in runs)


def sends_backlog(program, kind, how, folder):
    """Measures a source that sends what it wrote before. Answers whether ten times as much meets the bound."""
    times = {}
    for size in (SMALL, GREAT):
        (times[size],), peak = least(program, [schedule(kind, size, BACKLOG_ITEMS, folder)])
        print(
            f"{size:>7} records written before they are {how}, {BACKLOG_ITEMS} in a batch: {size / times[size]:>9,.0f} records a second,"
            f" {peak / MEBIBYTE:,.0f} MiB"
        )
    factor = times[GREAT] / times[SMALL]
    print(f"        from {SMALL:,} to {GREAT:,} records {how}, {BACKLOG_ITEMS} in a batch: {factor:.1f} times as long")
    return factor <= MOST_FACTOR


def begins_backlog(program, folder):
    """Measures the first batches of one record, by what they take more than the writes alone. Answers whether they cost much
    the same in front of ten times as many records."""
    costs = {}
    for size in (SMALL, GREAT):
        paths = [schedule(kind, size, 1, folder) for kind in ("written", "begun")]
        (alone, both), peak = least(program, paths)
        costs[size] = (both - alone) / BEGUN_POLLS
        print(f"{size:>7} records, the first 1,000 sent one in a batch: {1e6 * costs[size]:,.0f} microseconds a poll, {peak / MEBIBYTE:,.0f} MiB")
    factor = costs[GREAT] / costs[SMALL]
    print(f"        from {SMALL:,} to {GREAT:,} records, one in a batch: {factor:.2f} times as long a poll")
    return factor <= MOST_POLL_FACTOR


def keeps_up(program, older, folder):
    """Runs two programs in turn on one schedule. Answers whether the first takes not much more than the older one."""
    path = schedule("messages", GREAT, 10, folder)
    pairs = [(run(program, path), run(older, path)) for _ in range(TURNS)]
    seconds = [min(pair[place][0] for pair in pairs) for place in range(2)]
    peaks = [max(pair[place][1] for pair in pairs) for place in range(2)]
    slower, larger = seconds[0] / seconds[1], peaks[0] / peaks[1]
    print(
        f"{GREAT:>7} lines of messages, 10 sources: {seconds[0]:.2f} s and {peaks[0] / MEBIBYTE:,.0f} MiB,"
        f" {slower:.2f} times as long and {larger:.2f} times as much as with {older}"
    )
    return slower <= MOST_OLDER_FACTOR and larger <= MOST_OLDER_FACTOR


def main():
    program, *older = sys.argv[1:]
    with tempfile.TemporaryDirectory() as folder:
        good = [
            meets(program, kind, what, sources, bounded, folder)
            for kind, what, counts, bounded in KINDS
            for sources in counts
        ]
        good += [sends_backlog(program, kind, how, folder) for kind, how in BACKLOGS]
        good += [begins_backlog(program, folder)]
        good += [keeps_up(program, one, folder) for one in older]
    if not all(good):
        sys.exit("a bound isn't met")


main()
