#!/usr/bin/env python3
"""Sends what strangers could send to `collect`, `serve`, `check`, `add` and `replay`: good requests, documents, queries, events and schedules
whose bytes are changed (bits, cuts, doubled pieces, pieces of others, numbers at their limits, messages one behind the other). Each is sent
twice, over the same store. It fails where a process ends by a signal or with a status or a message that isn't stated, where an end isn't done
ten seconds after the sender closed its half (three times, since others may have the processors), takes more than 300 MiB, answers a second sending otherwise but for ids and moments, serves the
next sender no more, or holds a row that a refused message left. Prints how many cases came to which end; what fails is written into a file.

    bench/strangers.py [PROGRAM [CASES [SEED [SECONDS [JOBS]]]]]     PROGRAM is crates/wef/out/wef where it isn't given; CASES is 100000; SECONDS,
                                                                     after which no case is begun any more, 900; JOBS as many as processors
"""
import collections
import multiprocessing
import os
import random
import re
import resource
import select
import shutil
import socket
import sqlite3
import subprocess
import sys
import tempfile
import time

import collect
import shapes

HERE = os.path.dirname(os.path.abspath(__file__))
EXAMPLES = os.path.join(HERE, "..", "examples")
SECONDS = 10
MOST_KIBIBYTES = 300 * 1024
# A message may be of this length at most: the end of a connection lets go 256 KiB that weren't read.
MOST_BYTES = 100_000
ROUND = 100
TURNS = 3
# Of ten rounds so many are of each command.
ROUNDS = ["collect"] * 4 + ["serve"] * 2 + ["check", "add", "replay", "replay"]
LIMITS = ["0", "-1", "00", "1e9", "0x10", "255", "65536", str(2**31), str(2**32), str(2**63 - 1), str(2**63), str(2**64 - 1), str(2**64), "9" * 40]
FAULTS = {
    "InvalidMessage", "EncodingLimit", "MustUnderstand", "MessageInformationHeaderRequired", "ActionNotSupported", "DestinationUnreachable",
    "DeliveryModeRequestedUnavailable", "FilteringRequestedUnavailable", "InvalidExpirationTime", "InvalidBookmark", "UnableToRenew",
}
REFUSALS = {"400", "404", "405", "411", "413", "415"}
# What a run may print to its streams, by command and status.
ENDINGS = {
    ("add", 0): (r"added \S+\n", r""),
    ("add", 3): (r"", r"(place \d+|element \w+): not understood\n"),
    ("add", 8): (r"", r"exists \S+\n"),
    ("check", 0): (r"((yes|no)\n)*", r""),
    ("check", 3): (r"", r"line \d+: not understood\n"),
    ("replay", 0): (r".*", r""),
    ("replay", 3): (r"", r"line \d+: not understood\n"),
}
SPACES = f"{shapes.SPACES} xmlns:i='http://schemas.microsoft.com/wbem/wsman/1/machineid'"
EVENTING = "http://schemas.xmlsoap.org/ws/2004/08/eventing"
ENUMERATE = (
    f"<s:Envelope {SPACES}><s:Header><a:To>http://localhost/wsman/SubscriptionManager/WEC</a:To><w:ResourceURI s:mustUnderstand='true'>"
    "http://schemas.microsoft.com/wbem/wsman/1/SubscriptionManager/Subscription</w:ResourceURI><i:MachineID>pc1</i:MachineID><a:ReplyTo>"
    "<a:Address s:mustUnderstand='true'>http://schemas.xmlsoap.org/ws/2004/08/addressing/role/anonymous</a:Address></a:ReplyTo><a:Action "
    "s:mustUnderstand='true'>http://schemas.xmlsoap.org/ws/2004/09/enumeration/Enumerate</a:Action><a:MessageID>uuid:"
    "0A0B0C0D-0000-0000-0000-000000000002</a:MessageID></s:Header><s:Body><n:Enumerate/></s:Body></s:Envelope>"
)
BEAT = (
    f"<s:Envelope {SPACES}><s:Header><a:Action>{collect.ACTIONS}/Heartbeat</a:Action><a:MessageID>uuid:0A0B0C0D-0000-0000-0000-000000000003"
    "</a:MessageID><w:AckRequested/></s:Header><s:Body><w:Events/></s:Body></s:Envelope>"
)
DROPPED = shapes.ENVELOPE.replace(
    "<w:Event Action='e'>TEXT</w:Event>",
    "<w:DroppedEvents u:Channel='Security' u:First='3' u:Last='9'>7</w:DroppedEvents><w:DroppedEvents>2</w:DroppedEvents>",
)
SUBSCRIBE = (
    f"<s:Envelope {SPACES}><s:Header><a:To>http://pc1:5985/wsman</a:To><w:ResourceURI>http://schemas.microsoft.com/wbem/wsman/1/windows/EventLog"
    f"</w:ResourceURI><a:Action>{EVENTING}/Subscribe</a:Action><a:MessageID>uuid:0A0B0C0D-0000-0000-0000-000000000004</a:MessageID></s:Header><s:Body>"
    f"<e:Subscribe><e:EndTo><a:Address>http://127.0.0.1:9/wsman/subscriptions/base/pc1</a:Address></e:EndTo><e:Delivery Mode='{collect.ACTIONS}/Events'>"
    "<w:Heartbeats>PT900.000S</w:Heartbeats><e:NotifyTo><a:Address>http://127.0.0.1:9/wsman/subscriptions/base/pc1</a:Address><a:ReferenceProperties>"
    "<e:Identifier>base</e:Identifier></a:ReferenceProperties></e:NotifyTo><w:MaxElements>20</w:MaxElements><w:MaxEnvelopeSize Policy='Notify'>512000"
    "</w:MaxEnvelopeSize></e:Delivery><e:Expires>PT3600.000S</e:Expires><w:Filter Dialect='http://schemas.microsoft.com/win/2004/08/events/eventquery'>"
    "<QueryList><Query Id='0'><Select Path='Application'>*</Select></Query></QueryList></w:Filter><w:Bookmark>"
    f"{collect.ACTIONS}/bookmark/earliest</w:Bookmark><w:SendBookmarks/></e:Subscribe></s:Body></s:Envelope>"
)
MANAGE = (
    f"<s:Envelope {SPACES}><s:Header><a:To>http://pc1:5985/wsman</a:To><a:Action>{EVENTING}/NAME</a:Action><a:MessageID>uuid:0A0B0C0D-0000-0000-0000-"
    "000000000005</a:MessageID><e:Identifier>SESSION</e:Identifier></s:Header><s:Body>BODY</s:Body></s:Envelope>"
)


def read(name):
    """An example's bytes."""
    with open(os.path.join(EXAMPLES, name), "rb") as file:
        return file.read()


def examples(ending):
    """The bytes of the examples whose names end so."""
    return [read(name) for name in sorted(os.listdir(EXAMPLES)) if name.endswith(ending)]


def head_of(path, length, charset="UTF-8"):
    """The head of a good request, up to how its length is said."""
    return f"POST {path} HTTP/1.1\r\nHost: localhost\r\nContent-Type: application/soap+xml;charset={charset}\r\n{length}\r\n\r\n".encode()


def good_texts(command, session):
    """What changes begin with: of a server paths with bodies, of another command whole inputs."""
    batch = "/wsman/subscriptions/base/pc1"
    if command == "collect":
        bodies = [shapes.AS_TEXT, shapes.AS_ESCAPED, shapes.AS_ELEMENTS, DROPPED, BEAT]
        return [("/wsman/SubscriptionManager/WEC", ENUMERATE)] + [(path, body) for path in (batch, "/wsman/subscriptions/base/pc2") for body in bodies]
    if command == "serve":
        renew = f"<e:Renew><e:Expires>PT7200S</e:Expires></e:Renew>"
        bodies = [("Renew", renew), ("GetStatus", "<e:GetStatus/>"), ("Unsubscribe", "<e:Unsubscribe/>")]
        manage = [MANAGE.replace("NAME", name).replace("BODY", body).replace("SESSION", session) for name, body in bodies]
        return [("/wsman", SUBSCRIBE)] * 2 + [("/wsman", body) for body in manage]
    if command == "add":
        texts = examples(".xml") + [shapes.SUBSCRIPTION.encode(), shapes.BY_COLLECTOR.replace("◊", shapes.SOURCES[0].strip("«»")).encode()]
        return texts + [b"\xff\xfe" + text.decode().encode("utf-16-le") for text in texts]
    if command == "check":
        lines = read("ten-events.lines")
        return [query.rstrip(b"\n") + b"\n" + lines for query in examples(".query")] + [f"{shapes.LIST}\n{shapes.EVENT}\n".encode()]
    return examples(".schedule")


def piece(chance, text):
    """The bounds of a piece, mostly a short one."""
    begin = chance.randrange(len(text) + 1)
    return begin, min(len(text), begin + chance.choice([1, 2, 8, 40, 200, len(text)]))


def with_bits(chance, text, _others):
    """The text with some bits turned."""
    changed = bytearray(text)
    for _ in range(chance.choice([1, 1, 2, 8])):
        if changed:
            changed[chance.randrange(len(changed))] ^= 1 << chance.randrange(8)
    return bytes(changed)


def with_byte(chance, text, _others):
    """The text with a byte in it that says much."""
    at = chance.randrange(len(text) + 1)
    return text[:at] + chance.choice([b"\0", b"<", b">", b"&", b"'", b'"', b"]]>", b"\r", b"\n", b" ", b"\t", b":", b"/", b"%", b"\xff", b"\xef\xbb\xbf"]) + text[at + chance.randrange(2) :]


def with_cut(chance, text, _others):
    """The text without its end, its beginning or a piece."""
    begin, end = piece(chance, text)
    return chance.choice([text[:begin], text[begin:], text[:begin] + text[end:], text[:begin] + text[end:]])


def with_doubled(chance, text, _others):
    """The text with a piece that stands there again, as often as is chosen."""
    begin, end = piece(chance, text)
    return text[:end] + text[begin:end] * chance.choice([1, 1, 2, 16, 70, 300]) + text[end:]


def with_moved(chance, text, _others):
    """The text with a piece that stands elsewhere."""
    begin, end = piece(chance, text)
    rest = text[:begin] + text[end:]
    at = chance.randrange(len(rest) + 1)
    return rest[:at] + text[begin:end] + rest[at:]


def with_other(chance, text, others):
    """The text with a piece of another in it."""
    other = chance.choice(others)
    (begin, end), (first, last) = piece(chance, text), piece(chance, other)
    return text[:begin] + other[first:last] + text[chance.choice([begin, end]) :]


def with_limit(chance, text, _others):
    """The text with another number in place of one."""
    numbers = list(re.finditer(rb"\d+", text))
    if not numbers:
        return text
    one = chance.choice(numbers)
    return text[: one.start()] + chance.choice(LIMITS).encode() + text[one.end() :]


WAYS = [with_bits, with_bits, with_byte, with_byte, with_cut, with_doubled, with_moved, with_other, with_limit, with_limit]


def changed(chance, text, others):
    """A text that was changed in some ways."""
    for _ in range(chance.choice([1, 1, 1, 2, 4])):
        text = chance.choice(WAYS)(chance, text, others)[:MOST_BYTES]
    return text


def in_chunks(chance, body):
    """A body as chunks."""
    chunks, at = b"", 0
    while at < len(body):
        size = chance.choice([1, 7, 100, 4096, 100_000])
        part = body[at : at + size]
        chunks, at = chunks + f"{len(part):x}\r\n".encode() + part + b"\r\n", at + len(part)
        if len(chunks) > MOST_BYTES:
            break
    return chunks + b"0\r\n\r\n"


def one_request(chance, goods):
    """A request that was changed: its body alone, or all of it, or nothing."""
    path, body = chance.choice(goods)
    charset = chance.choice(["UTF-8"] * 5 + ["UTF-16"])
    encoding = "utf-8" if charset == "UTF-8" else "utf-16-le"
    body, others = body.encode(encoding), [other.encode(encoding) for _, other in goods]
    kind = chance.choices(["body", "head", "chunks", "whole", "none"], [11, 3, 3, 2, 1])[0]
    if kind in ("body", "chunks"):
        body = changed(chance, body, others)
    if kind == "chunks":
        chunks = in_chunks(chance, body)
        return head_of(path, "Transfer-Encoding: chunked", charset) + (changed(chance, chunks, others) if chance.random() < 0.5 else chunks)
    head = head_of(path, f"Content-Length: {len(body)}", charset)
    if kind == "head":
        head = changed(chance, head, [head_of(other, "Connection: close") for other, _ in goods])
    return changed(chance, head + body, others) if kind == "whole" else head + body


def case_of(command, goods, seed, number):
    """The bytes of a case, by its number."""
    chance = random.Random(f"{seed} {command} {number}")
    if command not in ("collect", "serve"):
        return changed(chance, chance.choice(goods), goods)
    return b"".join(one_request(chance, goods) for _ in range(chance.choice([1, 1, 1, 1, 2, 3])))[: 2 * MOST_BYTES]


class Wrong(Exception):
    """An end that isn't a stated one."""


class Slow(Wrong):
    """A wait that was too long: a fault where it is so again, since other work may have had the processors."""


class Unlinked(Exception):
    """`serve` ended since a collector that a stranger named can't be reached: a heartbeat for it was due."""


class Server:
    """`collect` or `serve` over a folder, for so many connections."""

    def __init__(self, program, folder, command, connections):
        with socket.create_server(("127.0.0.1", 0)) as free:
            self.port = free.getsockname()[1]
        words = [program, command, f"127.0.0.1:{self.port}", *(["pc1"] if command == "serve" else []), str(connections)]
        self.process = subprocess.Popen(words, cwd=folder, stdout=subprocess.PIPE, stderr=subprocess.STDOUT, bufsize=0)
        self.rest = b""
        if not (line := self.line()).startswith(b"listening "):
            raise Wrong(f"{command} printed {line!r}")

    def line(self):
        """The next line that is printed."""
        until = time.monotonic() + SECONDS
        while b"\n" not in self.rest:
            if not select.select([self.process.stdout], [], [], max(0, until - time.monotonic()))[0]:
                raise Slow("no line was printed")
            if not (more := os.read(self.process.stdout.fileno(), 65536)):
                raise Wrong(f"the server ended with {self.process.wait(SECONDS)}")
            self.rest += more
        line, self.rest = self.rest.split(b"\n", 1)
        if line == b"link failed" and self.process.wait(SECONDS) == 5:
            raise Unlinked
        return line

    def connect(self):
        """A connection to it; where it ended, that it did."""
        try:
            return socket.create_connection(("127.0.0.1", self.port), timeout=SECONDS)
        except ConnectionRefusedError:
            raise Wrong(f"nobody listens, behind {self.line()!r}")

    def exchange(self, sent):
        """What comes for what is sent in one connection, and how that ended."""
        with self.connect() as link:
            heard = b""
            try:
                link.sendall(sent)
                link.shutdown(socket.SHUT_WR)
                while more := link.recv(65536):
                    heard += more
            except TimeoutError:
                raise Slow("the connection hangs")
            except OSError as error:
                heard += b" " + type(error).__name__.encode()
        line = self.line()
        while not line.startswith(b"connection "):
            if not line.startswith(b"sent "):
                raise Wrong(f"the server printed {line!r}")
            line = self.line()
        return heard, line.split(b" ", 2)[2].decode()

    def end(self):
        """Sees it end."""
        try:
            status = self.process.wait(SECONDS)
        except subprocess.TimeoutExpired:
            raise Slow("the server doesn't end")
        if status != 0:
            raise Wrong(f"the server ended with {status}")

    def kill(self):
        self.process.kill()
        self.process.wait()
        self.process.stdout.close()


def told_by(heard, word):
    """What responses say, in words: their statuses and faults. They are good ones, and fit how the connection ended."""
    kinds, rest = [], heard
    while rest:
        head, gap, behind = rest.partition(b"\r\n\r\n")
        match = re.match(rb"HTTP/1\.1 (\d{3}) ", head)
        if not match or not gap:
            raise Wrong(f"no response: {rest[:200]!r}")
        status = match[1].decode()
        length = re.search(rb"(?i)\r\ncontent-length: *(\d+)", head)
        size = int(length[1]) if length else 0
        body, rest = behind[:size], behind[size:]
        if len(body) < size or status not in REFUSALS | {"200", "204", "500"}:
            raise Wrong(f"no stated response: {head!r}")
        text = body.decode("utf-16" if body[:2] in (b"\xff\xfe", b"\xfe\xff") else "utf-8")
        name = re.search(r"<s:Subcode><s:Value>\w+:(\w+)</s:Value>", text) or re.search(r"<s:Value>\w+:(\w+)</s:Value>", text)
        fault = name[1] if status == "500" and name else ""
        if status == "500" and fault not in FAULTS:
            raise Wrong(f"no stated fault: {text[-600:]}")
        kinds.append(f"{status} {fault}".strip())
    is_refused = bool(kinds) and kinds[-1] in REFUSALS
    if word not in ("end", "closed", "cut", "failed") and not (is_refused and word == f"refused {kinds[-1]}"):
        raise Wrong(f"the connection ended as {word!r} behind {kinds}")
    return kinds


def without_ids(heard):
    """What is heard, without its ids and moments."""
    text = heard.replace(b"\0", b"")
    return re.sub(rb"uuid:[-0-9A-Fa-f]{36}", b"ID", re.sub(rb"PT?[0-9.DTHMS]+|\d{4}-\d\d-\d\dT[0-9:.]+Z", b"MOMENT", text))


def rows_of(folder):
    """The rows of a folder's store, none where there is no store; of when sources were heard and asked, only that they were."""
    path = os.path.join(folder, "wef.db")
    if not os.path.exists(path):
        return []
    database = sqlite3.connect(path)
    try:
        rows = database.execute("SELECT kind, sub, source, channel, number, value, body FROM kept ORDER BY kind, sub, source, channel, number").fetchall()
    finally:
        database.close()
    return [row[:5] if row[0] in (6, 7) else row for row in rows]


def named(wrong, command, number, sent):
    """What was wrong, with its case."""
    return (Slow if isinstance(wrong, Slow) else Wrong)(f"{command} {number}: {wrong}", sent)


class Room:
    """A folder in which each trial has a copy of a store."""

    def __init__(self, program, store, under):
        self.program, self.store, self.under = program, store, under

    def copy(self):
        folder = os.path.join(self.under, "store")
        shutil.rmtree(folder, ignore_errors=True)
        shutil.copytree(self.store, folder)
        return folder


def sent_all(room, command, cases, good):
    """What a server says to each of these, and the rows that it leaves; behind all of them it serves a good request. A `serve` that ended for a
    stranger's collector answered those before alone."""
    folder = room.copy()
    server = Server(room.program, folder, command, len(cases) + 1)
    answers = []
    try:
        for number, sent in cases:
            try:
                heard, word = server.exchange(sent)
                answers.append((number, told_by(heard, word), word, without_ids(heard)))
            except (Wrong, OSError) as wrong:
                raise named(wrong, command, number, sent)
        heard, word = server.exchange(good)
        if told_by(heard, word) != ["200"]:
            raise Wrong(f"{command}: a good request behind {cases[-1][0]} is answered {heard!r}")
        server.end()
    except Unlinked:
        pass
    finally:
        server.kill()
    return answers, rows_of(folder)


def served(room, command, cases, good):
    """Has a server take cases, and again, and then those alone of which it took something. Gives the words for how each ended."""
    answers, rows = sent_all(room, command, cases, good)
    again, rows_again = sent_all(room, command, cases, good)
    by_number = dict(cases)
    for one, other in zip(answers, again):
        if one != other:
            raise Wrong(f"{command} {one[0]}: a second sending is answered otherwise: {one!r} {other!r}", by_number[one[0]])
    if rows != rows_again:
        raise Wrong(f"{command} {cases[0][0]} to {cases[-1][0]}: a second sending leaves other rows")
    taken = [(number, by_number[number]) for number, kinds, _, _ in answers if any(kind[0] == "2" for kind in kinds)]
    if command == "collect" and sent_all(room, command, taken, good)[1] != rows:
        raise Wrong(f"{command} {cases[0][0]} to {cases[-1][0]}: a refused message left a row")
    return [" ".join([command, word]) if not kinds else " ".join([command, kinds[-1]]) for _, kinds, word, _ in answers]


def tried(room, command, given):
    """The status of a run over a copy of the store, what it printed, and the rows that it left."""
    folder = room.copy()
    try:
        done = subprocess.run([room.program, command], cwd=folder, input=given, capture_output=True, timeout=SECONDS)
    except subprocess.TimeoutExpired:
        raise Slow("it hangs")
    out, error = done.stdout, done.stderr.decode("utf-8", "replace")
    endings = ENDINGS.get((command, done.returncode))
    if endings is None or not all(re.fullmatch(form, text, re.S) for form, text in zip(endings, (out.decode("utf-8"), error))):
        raise Wrong(f"it ended with {done.returncode}, {out[:300]!r} and {error[:300]!r}")
    return done.returncode, out, error, rows_of(folder)


def judged(room, command, number, given):
    """Runs a command on an input, and again. Gives the word for how it ended."""
    try:
        first, second = tried(room, command, given), tried(room, command, given)
        if first != second:
            raise Wrong(f"a second run ends otherwise: {first!r} {second!r}")
        status, out, _, rows = first
        before = [row for row in rows_of(room.store) if row[0] != 8]
        if status != 0 and [row for row in rows if row[0] != 8] != before or status == 3 and rows != rows_of(room.store):
            raise Wrong("a refused input left a row")
        if command == "check" and status == 0 and out.count(b"\n") != len(given.removesuffix(b"\n").split(b"\n")) - 1:
            raise Wrong("an event has no answer, or two")
    except Wrong as wrong:
        raise named(wrong, command, number, given)
    return f"{command} {status}"


def ended_as(room, command, cases, good):
    """The words for how the cases of a round ended."""
    if command in ("collect", "serve"):
        words = served(room, command, cases, good)
    else:
        words = [judged(room, command, number, given) for number, given in cases]
    if resource.getrusage(resource.RUSAGE_CHILDREN).ru_maxrss > MOST_KIBIBYTES:
        raise Wrong(f"{command} {cases[0][0]} to {cases[-1][0]}: more than 300 MiB")
    return words


def round_of(task):
    """Does the cases of a round, if there is time, again where it was slow. Gives how they ended, and what was wrong."""
    program, stores, command, session, seed, first, until = task
    goods = good_texts(command, session)
    cases = [(number, case_of(command, goods, seed, number)) for number in range(first, first + ROUND)]
    store = stores["full" if command == "add" and first % 3 == 0 else command]
    path, body = goods[0] if command in ("collect", "serve") else ("", "")
    good = head_of(path, f"Content-Length: {len(body.encode())}") + body.encode()
    wrong = None
    for _ in range(TURNS):
        if time.time() > until:
            break
        with tempfile.TemporaryDirectory() as under:
            try:
                return collections.Counter(ended_as(Room(program, store, under), command, cases, good)), None
            except Slow as slow:
                wrong = slow.args
            except Wrong as fault:
                return collections.Counter(), fault.args
    return collections.Counter(), wrong


def made_stores(program, room):
    """The stores that cases begin with: a collector's with a subscription, a source's without a record, and none."""
    stores = {name: os.path.join(room, name) for name in ("collect", "serve", "empty", "full")}
    for folder in stores.values():
        os.mkdir(folder)
    for name in ("collect", "full"):
        subprocess.run([program, "add"], cwd=stores[name], input=collect.SUBSCRIPTION.encode(), check=True, stdout=subprocess.DEVNULL)
    subprocess.run([program, "write"], cwd=stores["serve"], input=b"", check=True)
    return {**stores, "add": stores["empty"], "check": stores["empty"], "replay": stores["empty"]}


def session_of(program, store):
    """The identifier of the session that the first Subscribe of a run begins."""
    with tempfile.TemporaryDirectory() as under:
        server = Server(program, Room(program, store, under).copy(), "serve", 1)
        heard, _ = server.exchange(head_of("/wsman", f"Content-Length: {len(SUBSCRIBE)}") + SUBSCRIBE.encode())
        server.end()
        server.kill()
    return re.search(r"Identifier[^>]*>([^<]*)<", heard.decode())[1]


def main():
    program = os.path.abspath(sys.argv[1] if len(sys.argv) > 1 else os.path.join(HERE, "..", "crates", "wef", "out", "wef"))
    count = int(sys.argv[2]) if len(sys.argv) > 2 else 100_000
    seed = int(sys.argv[3]) if len(sys.argv) > 3 else random.randrange(1_000_000)
    until = time.time() + (int(sys.argv[4]) if len(sys.argv) > 4 else 900)
    jobs = int(sys.argv[5]) if len(sys.argv) > 5 else os.cpu_count()
    print(f"seed {seed}, {count:,} cases")
    ended, wrongs = collections.Counter(), []
    with tempfile.TemporaryDirectory() as room, multiprocessing.Pool(jobs) as pool:
        stores = made_stores(program, room)
        session = session_of(program, stores["serve"])
        tasks = [(program, stores, ROUNDS[i % len(ROUNDS)], session, seed, i * ROUND, until) for i in range(count // ROUND)]
        for counted, wrong in pool.imap_unordered(round_of, tasks):
            ended += counted
            if wrong:
                wrongs.append(wrong)
                print("WRONG", wrong[0][:1500], flush=True)
    for i, wrong in enumerate(wrongs):
        if len(wrong) > 1:
            with open(f"stranger-{seed}-{i}", "wb") as file:
                file.write(wrong[1])
    for word, times in sorted(ended.items()):
        print(f"{times:>8,} {word}")
    print(f"{sum(ended.values()):,} cases, {len(wrongs)} rounds with a wrong end")
    return 1 if wrongs or not ended else 0


if __name__ == "__main__":
    sys.exit(main())
