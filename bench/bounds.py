#!/usr/bin/env python3
"""Runs documents, schedules, requests and replies of strangers' shapes, each at two sizes a factor 2 apart.

    bench/bounds.py [FOLDER [WORD]]       FOLDER has the built programs; crates where it isn't given. WORD: only shapes of bench/shapes.py
                                          whose titles have it

Prints for each the seconds of processor time (the best of three runs), the peak memory, and the factors from the smaller
to the greater. It fails where twice as much takes more than 2.6 times as long or as much memory, and where 1 MiB of a shape of
bench/shapes.py takes more than 1.5 seconds; of these it prints those that miss a bound, and the slowest of each command. Some
documents of 16 MiB are taken once: it fails where four million elements take more than 2 GiB, children whose namespace is too
long for an event more than two seconds until they are refused, or spaces outside the root more than 1.5 times as long as
letters of a text.
"""
import itertools
import os
import re
import socket
import subprocess
import sys
import tempfile
import threading

import collect
import shapes

HERE = os.path.dirname(os.path.abspath(__file__))
MOST_FACTOR = 2.6
TURNS = 3
MEBIBYTE = 1 << 20
MOST_SECONDS = 1.5
MOST_SPACES = 1.5
# Times and peaks below these say more of the program's start than of its input.
LEAST_SECONDS, LEAST_BYTES = 0.02, 16 * MEBIBYTE


def plain_events(size):
    """Plain events, one behind the other."""
    event = (
        '<Event xmlns="http://schemas.microsoft.com/win/2004/08/events/event"><System><EventID>0</EventID><Level>4</Level>'
        "<EventRecordID>1</EventRecordID><Channel>application</Channel></System><EventData><Data>a</Data></EventData></Event>"
    )
    return "<Events>" + event * (size // len(event)) + "</Events>"


def many_namespaces(size):
    """One tag with as many namespaces as fit, each with an attribute."""
    parts = []
    length = 0
    while length < size:
        number = len(parts)
        parts.append(f' xmlns:p{number}="n{number}" p{number}:a=""')
        length += len(parts[-1])
    return "<a" + "".join(parts) + "/>"


def one_long_namespace(size):
    """Children in a namespace of half the size."""
    return f'<p:a xmlns:p="{"n" * (size // 2)}">' + "<p:b/>" * (size // 12) + "</p:a>"


def attributes_in_one_long_namespace(size):
    """Attributes, one at each child, in a namespace of half the size that has a prefix at the root."""
    return f'<a xmlns:p="{"n" * (size // 2)}" p:c="">' + '<b p:c=""/>' * (size // 22) + "</a>"


def empty_elements(size):
    """Empty elements, as many as fit."""
    return "<a>" + "<a/>" * (size // 4) + "</a>"


def one_text(size):
    """One text of letters and references."""
    return "<a>" + "x&amp;" * (size // 6) + "</a>"


def deep_again(size):
    """Elements 60 deep, again and again, in a namespace of the root."""
    branch = "<p:b>" * 60 + "</p:b>" * 60
    return '<p:a xmlns:p="n">' + branch * (size // len(branch)) + "</p:a>"


def event_in_one_long_namespace(size):
    """An event of the size, half of which is the namespace of its many elements."""
    front = f'<Event xmlns="{"n" * (size // 2)}"><System><EventID>1</EventID><EventRecordID>7</EventRecordID><Channel>Security</Channel></System>'
    return front + "<a></a>" * ((size - len(front) - 16) // 7) + "</Event>"


def checked_event(size):
    """A list of queries, and such an event behind it."""
    return "<QueryList><Query Path='Security'><Select>*[System[EventID=1]]</Select></Query></QueryList>\n" + event_in_one_long_namespace(size)


DOCUMENTS = (
    plain_events,
    many_namespaces,
    one_long_namespace,
    attributes_in_one_long_namespace,
    empty_elements,
    one_text,
    deep_again,
)


def subscription():
    return "subscribe base 20 512000 900000 all application\n"


def batch(first, last):
    words = " ".join(f"e:application:{number}:a" for number in range(first, last + 1))
    return f"batch base pc1 {words} ack\n"


def shows_of_little(size):
    """Many reports of a small state."""
    return subscription() + batch(1, 1) + "show\n" * size


def shows_of_much(size):
    """Some reports of many events."""
    batches = "".join(batch(first, first + 19) for first in range(1, size, 20))
    return subscription() + batches + "show\n" * 20


def one_batch(size):
    """One line with many events."""
    return subscription() + batch(1, size)


def comments(size):
    """Comments and empty lines."""
    return "# nothing\n\n" * size


# Each shape of a schedule, and its smaller size.
SCHEDULES = ((shows_of_little, 100_000), (shows_of_much, 10_000), (one_batch, 100_000), (comments, 500_000))


def run(words, text):
    """The seconds of processor time of one run in a folder of its own, and its peak memory in bytes."""
    with tempfile.TemporaryDirectory() as folder, tempfile.TemporaryFile() as stdin, open(os.devnull, "wb") as out:
        stdin.write(text.encode())
        stdin.seek(0)
        child = subprocess.Popen(words, stdin=stdin, stdout=out, cwd=folder)
        _, status, usage = os.wait4(child.pid, 0)
    if status != 0:
        sys.exit(f"{words[0]} ended with status {os.waitstatus_to_exitcode(status)}")
    return usage.ru_utime + usage.ru_stime, usage.ru_maxrss * 1024


def deliver(words, event):
    """The same of `collect`, in which an event comes that stands in its message as elements."""
    with tempfile.TemporaryDirectory() as folder:
        subprocess.run([words[0], "add"], cwd=folder, input=collect.SUBSCRIPTION, text=True, stdout=subprocess.DEVNULL, check=True)
        _, seconds, peak = collect.deliver(words[0], folder, [collect.request_of([event], 7, 1)])
    return seconds, peak * MEBIBYTE


def used(process):
    """The seconds of processor time of a process once it has ended, and its peak memory in bytes."""
    _, status, usage = os.wait4(process.pid, 0)
    process.returncode = os.waitstatus_to_exitcode(status)
    if process.returncode < 0:
        sys.exit(f"a run ended with signal {-process.returncode}")
    return usage.ru_utime + usage.ru_stime, usage.ru_maxrss * 1024


def judge(words, text):
    """The same of a command that may refuse what it reads."""
    with tempfile.TemporaryDirectory() as folder, tempfile.TemporaryFile() as stdin:
        stdin.write(text.encode())
        stdin.seek(0)
        return used(subprocess.Popen(words, stdin=stdin, stdout=subprocess.DEVNULL, stderr=subprocess.DEVNULL, cwd=folder))


def send(link, text):
    """Sends bytes, as far as the other end takes them."""
    try:
        link.sendall(text)
    except OSError:
        pass


def end(link):
    """Says that nothing more comes."""
    try:
        link.shutdown(socket.SHUT_WR)
    except OSError:
        pass


def send_all(link, text):
    """Sends bytes, and says that nothing more comes."""
    send(link, text)
    end(link)


def hear(link):
    """Reads what comes, up to its end."""
    try:
        while link.recv(1 << 16):
            pass
    except OSError:
        pass


def serve(words, text):
    """The same of `collect`, to which a connection brings these bytes."""
    with tempfile.TemporaryDirectory() as folder:
        subprocess.run([words[0], "add"], cwd=folder, input=collect.SUBSCRIPTION, text=True, stdout=subprocess.DEVNULL, check=True)
        collector = collect.Collector(words[0], folder)
        with collector.connect() as link:
            sender = threading.Thread(target=send_all, args=(link, text.encode()))
            sender.start()
            hear(link)
            sender.join()
        collector.process.stdout.read()
        return used(collector.process)


def request(words, body):
    """The same of a request with this body."""
    return serve(words, shapes.HEAD + f"Content-Length: {len(body.encode())}\r\n\r\n" + body)


class Replies(threading.Thread):
    """A collector that gives these replies, and reads a request before each. It closes what comes behind them."""

    def __init__(self, replies):
        super().__init__(daemon=True)
        self.replies = replies
        self.listener = socket.create_server(("127.0.0.1", 0))
        self.address = f"127.0.0.1:{self.listener.getsockname()[1]}"

    def run(self):
        while True:
            try:
                link, _ = self.listener.accept()
            except OSError:
                return
            with link, link.makefile("rb") as stream:
                while self.replies and (sent := read_request(stream)):
                    send(link, self.replies.pop(0)(sent).encode())
                end(link)
                hear(link)

    def end(self):
        self.listener.shutdown(socket.SHUT_RDWR)
        self.join()
        self.listener.close()


def read_request(stream):
    """The body of the next request, or nothing where there is none."""
    length = 0
    try:
        while (line := stream.readline()) not in (b"\r\n", b""):
            name, _, value = line.partition(b":")
            if name.lower() == b"content-length":
                length = int(value)
        return stream.read(length).decode()
    except OSError:
        return ""


def reply_of(body):
    """A reply with this body, to whatever was sent. Batches are to go where that was sent, too."""

    def reply(sent):
        message, place = re.search("MessageID>([^<]*)<", sent), re.search("http://([^/<]*)/wsman/", sent)
        answer = body.replace("MESSAGE", message[1] if message else "")
        answer = answer.replace("http://collector:5985/", f"http://{place[1]}/" if place else "")
        return shapes.RESPONSE_HEAD + f"Content-Length: {len(answer.encode())}\r\n\r\n" + answer

    return reply


def forward(words, replies):
    """The same of `forward`, whose log has an event, and which hears these replies."""
    with tempfile.TemporaryDirectory() as folder:
        subprocess.run([words[0], "write"], cwd=folder, input=shapes.EVENT + "\n", text=True, stdout=subprocess.DEVNULL, check=True)
        collector = Replies(replies)
        collector.start()
        process = subprocess.Popen([words[0], "forward", collector.address, "pc1", "1"], cwd=folder, stdout=subprocess.DEVNULL, stderr=subprocess.DEVNULL)
        taken = used(process)
        collector.end()
        return taken


def hear_offers(words, body):
    """The same where a body answers what is asked."""
    return forward(words, [reply_of(body)])


def hear_acknowledgement(words, body):
    """The same where a body answers a batch."""
    return forward(words, [reply_of(shapes.OFFERS), reply_of(body)])


def hear_response(words, text):
    """The same where these bytes answer what is asked."""
    return forward(words, [lambda sent: text])


# How each command of bench/shapes.py is run.
RUNNERS = {
    "add": judge,
    "check": judge,
    "write": judge,
    "replay": judge,
    "collect": request,
    "head": serve,
    "forward": hear_offers,
    "acknowledged": hear_acknowledgement,
    "response": hear_response,
}


def stranger(program, command, text, pieces):
    """Measures what stands in a text at two sizes, again where a bound is missed. Answers the greater's time and peak, the factors of both,
    and whether all are within their bounds."""
    best = None
    for _ in range(TURNS):
        small, great = (RUNNERS[command]([program, command], shapes.filled(text, pieces, size)) for size in (MEBIBYTE // 2, MEBIBYTE))
        slower, larger = factor(small[0], great[0], LEAST_SECONDS), factor(small[1], great[1], LEAST_BYTES)
        is_good = great[0] <= MOST_SECONDS and slower <= MOST_FACTOR and larger <= MOST_FACTOR
        if best is None or is_good or great[0] < best[0]:
            best = (*great, slower, larger, is_good)
        if is_good:
            break
    return best


def strangers(program, word):
    """Measures each shape of bench/shapes.py whose title has a word. Answers whether all are within their bounds."""
    good, slowest, counts = True, {}, {}
    for command, text, pieces in shapes.table():
        name = shapes.title(command, text, pieces)
        if word not in name:
            continue
        took, peak, slower, larger, is_good = stranger(program, command, text, pieces)
        line = f"{name:<90} {took:>6.2f} s {peak / MEBIBYTE:>5,.0f} MiB, {slower:.1f} times as long and {larger:.1f} times as much as half of it"
        counts[command] = counts.get(command, 0) + 1
        slowest[command] = max(slowest.get(command, (0, "")), (took, line))
        if not is_good:
            print(f"misses a bound: {line}", flush=True)
            good = False
    for command, (_, line) in slowest.items():
        print(f"the slowest of {counts[command]}: {line}", flush=True)
    return good


def measured(runner, words, text):
    runs = [runner(words, text) for _ in range(TURNS)]
    return min(seconds for seconds, _ in runs), max(peak for _, peak in runs)


# An event is given a number, is asked of a list, and comes as elements.
EVENTS = (
    ("write", event_in_one_long_namespace, run),
    ("check", checked_event, run),
    ("collect", event_in_one_long_namespace, deliver),
)


def factor(small, great, least):
    return max(great, least) / max(small, least)


def meets(words, title, shape, size, runner=run):
    """Measures a shape at a size and at twice that. Answers whether it meets the bound, and the greater's time and peak."""
    small, great = measured(runner, words, shape(size)), measured(runner, words, shape(2 * size))
    slower = factor(small[0], great[0], LEAST_SECONDS)
    larger = factor(small[1], great[1], LEAST_BYTES)
    print(
        f"{title:<38} {2 * size:>9,}: {great[0]:>7.2f} s {great[1] / MEBIBYTE:>7,.0f} MiB,"
        f" {slower:.1f} times as long and {larger:.1f} times as much as half of it",
        flush=True,
    )
    return slower <= MOST_FACTOR and larger <= MOST_FACTOR


def stays(words, title, text, most_seconds, most_bytes):
    """Measures one run. Answers whether it stays within its bounds."""
    seconds, peak = run(words, text)
    print(f"{title:<38} {len(text):>9,}: {seconds:>7.2f} s {peak / MEBIBYTE:>7,.0f} MiB", flush=True)
    return seconds <= most_seconds and peak <= most_bytes


def keeps_pace(words, size):
    """Reads letters of one text, and as many spaces in front of a root and behind it. Answers whether the spaces keep the pace."""
    letters, _ = measured(run, words, "<a>" + "x" * size + "</a>")
    good = True
    for title, text in (("in front of the root", " " * size + "<a/>"), ("behind the root", "<a/>" + " " * size)):
        took, _ = measured(run, words, text)
        print(f"{size:,} spaces {title}: {took:.2f} s, {took / letters:.2f} times as long as letters of a text", flush=True)
        good &= took <= MOST_SPACES * letters
    return good


def main():
    crates = os.path.abspath(sys.argv[1] if len(sys.argv) > 1 else os.path.join(HERE, "..", "crates"))
    layers = os.path.join(crates, "bench_layers", "out", "bench_layers")
    program = os.path.join(crates, "wef", "out", "wef")
    if len(sys.argv) > 2:
        sys.exit(0 if strangers(program, sys.argv[2]) else "a bound isn't met")
    good = [strangers(program, "")]
    for word in ("read", "write"):
        for shape in DOCUMENTS:
            good.append(meets([layers, "trees", word], f"{word} {shape.__name__}", shape, MEBIBYTE))
    for word, shape, runner in EVENTS:
        good.append(meets([program, word], f"{word} {shape.__name__}", shape, MEBIBYTE // 2, runner))
    for shape, size in SCHEDULES:
        good.append(meets([program, "replay"], shape.__name__, shape, size))
    good.append(keeps_pace([layers, "trees", "read"], 16 * MEBIBYTE))
    # last, since the peak of a run counts what this one had before it
    greatest = 16 * MEBIBYTE
    good.append(stays([layers, "trees", "read"], "read empty_elements", empty_elements(greatest), 10, 2048 * MEBIBYTE))
    # what has a text that is too long for an event is refused once that is seen
    good.append(stays([layers, "trees", "within"], "within one_long_namespace", one_long_namespace(greatest), 2, 2048 * MEBIBYTE))
    if not all(good):
        sys.exit("a bound isn't met")


if __name__ == "__main__":
    main()
