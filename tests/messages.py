"""The calls that write and read RIP messages, and the program `rip`, beside response.py on networks and damaged messages made from a seed.

    messages.py LIBRARY PROGRAM [SEED [COUNT]]

LIBRARY is a shared object of the crate `bench`, PROGRAM is `rip`. COUNT is the number of random networks; the other cases are made whatever it is.
The last line is 'messages: N checks, M failed'; the exit status is 0 where M is 0. That every number and every count of hops was seen is a check too.
"""

import ctypes
import faulthandler
import glob
import itertools
import mmap
import os
import random
import subprocess
import sys
import tempfile
import threading
import time

import damaged
import reader
import response

MOST_NODES = 32
# The longest messages.
MOST_BYTES = 648
# The words of a network, and which of them is n.
WORDS = 3232
N_WORD = 0
# What a lent output and the bytes around it hold before a call.
AROUND = 64
PATTERN = bytes((37 * i + 11) % 256 for i in range(1_000))
# What the words of an answer, and two after them, hold before a call.
FILLING = 0xA5A5A5A5A5A5A5A5
READ_WORDS = 34
PAGE = mmap.PAGESIZE

BASES = [0, 0xFFFFFF00, 0x0A200700]
# Seconds that the program may take for one input.
LIMIT = 10
MOST_SHOWN = 10
MOST_HANGS = 2
# The numbers that each call and the program can give.
NUMBERS = {"write": {0, 3, 6, 13}, "read": {0, 3, 13, 14}, "stopped": {1, 2, 3, 4, 5, 7, 10, 11, 12}}


class Stopped(Exception):
    pass


class Pages:
    """Bytes with an inaccessible page before and after them."""

    def __init__(self, length):
        self.length = (length + PAGE - 1) // PAGE * PAGE
        self.memory = mmap.mmap(-1, self.length + 2 * PAGE)
        start = ctypes.addressof(ctypes.c_char.from_buffer(self.memory))
        self.start, self.end = start + PAGE, start + PAGE + self.length
        libc = ctypes.CDLL(None, use_errno=True)
        for page in (start, self.end):
            if libc.mprotect(ctypes.c_void_p(page), ctypes.c_size_t(PAGE), 0) != 0:
                raise OSError(ctypes.get_errno(), "mprotect")

    def put(self, data, at_end):
        """Places bytes at the start or at the end, and answers their address."""
        place = self.end - len(data) if at_end else self.start
        ctypes.memmove(place, data, len(data))
        return place


class Library:
    def __init__(self, path):
        calls = ctypes.CDLL(path)
        pointer, word, size = ctypes.c_void_p, ctypes.c_uint32, ctypes.c_size_t
        self.bench_run = calls.bench_run
        self.bench_run.argtypes = pointer, size, pointer, pointer
        self.bench_write = calls.bench_write_messages
        self.bench_write.argtypes = pointer, word, pointer, size, pointer
        self.bench_read = calls.bench_read_messages
        self.bench_read.argtypes = pointer, size, word, word, pointer
        for call in (self.bench_run, self.bench_write, self.bench_read):
            call.restype = None
        self.net = (ctypes.c_uint32 * WORDS)()
        self.wrote = (ctypes.c_uint64 * 4)()
        self.answer = (ctypes.c_uint64 * (READ_WORDS + 2))()
        self.out = ctypes.create_string_buffer(len(PATTERN))
        self.input_pages = Pages(PAGE)
        self.output_pages = Pages(PAGE)

    def run(self, data):
        """The network after a run goes to self.net."""
        self.bench_run(data, len(data), self.answer, self.net)

    def write(self, base, room, at_end=False):
        """Number, length, what follows them, the output with the bytes around it, and whether the network is as it stood."""
        before = bytes(self.net)
        self.wrote[:] = [FILLING] * 4
        if at_end:
            out = self.output_pages.put(PATTERN[: AROUND + room], True)
            self.bench_write(self.net, base, out + AROUND, room, self.wrote)
            output = ctypes.string_at(out, AROUND + room)
        else:
            ctypes.memmove(self.out, PATTERN, len(PATTERN))
            self.bench_write(self.net, base, ctypes.addressof(self.out) + AROUND, room, self.wrote)
            output = self.out.raw
        return (*self.wrote, output, bytes(self.net) == before)

    def read(self, data, base, n, at_end=None):
        """Number, nodes, metrics, what follows them, and whether the input is as it stood: with at_end it lies at the start or the end of its pages."""
        lent = data if at_end is None else self.input_pages.put(data, at_end)
        self.answer[:] = [FILLING] * len(self.answer)
        self.bench_read(lent, len(data), base, n, self.answer)
        return [*self.answer, at_end is None or ctypes.string_at(lent, len(data)) == data]


class Trial:
    def __init__(self, library, program, rng):
        self.library = library
        self.program = program
        self.rng = rng
        self.checks = 0
        self.failures = 0
        self.hangs = 0
        self.seen = {name: set() for name in NUMBERS}
        self.hops = set()

    def same(self, what, case, ours, theirs):
        """One check. The case is what to show where it fails."""
        self.checks += 1
        if ours == theirs:
            return
        self.failures += 1
        print(f"messages: failed: {what}\n  case     {shown(case)}\n  expected {shown(ours)}\n  found    {shown(theirs)}")
        if self.failures >= MOST_SHOWN or self.hangs >= MOST_HANGS:
            print("messages: stopped here")
            raise Stopped

    # The calls

    def write(self, what, values, base, room, at_end=False):
        """Writing for the network in the library's words, which has these metrics."""
        number, out = response.write(base, values, room)
        self.seen["write"].add(number)
        whole = PATTERN[:AROUND] + out + PATTERN[AROUND + len(out) : AROUND + room if at_end else None]
        theirs = self.library.write(base, room, at_end)
        self.same("write, " + what, (base, room, values), (number, len(out), FILLING, FILLING, whole, True), theirs)
        return out

    def read(self, what, data, base, n, at_end=None):
        number, values = response.read(data, base, n)
        self.answers(what, data, base, n, number, values, at_end)
        return number

    def answers(self, what, data, base, n, number, values, at_end=None):
        """Reading, held to this answer."""
        self.seen["read"].add(number)
        ours = [number, len(values), *values, *[0] * (MOST_NODES - len(values)), FILLING, FILLING, True]
        self.same("read, " + what, (base, n, data), ours, self.library.read(data, base, n, at_end))

    def network(self, what, data, bases, rooms=(MOST_BYTES,)):
        """Writes the network of a run with each base and reads it back; answers its metrics."""
        number, _, _, network = reader.run(data)
        assert number == 0, what
        values = response.metrics(network)
        for node in range(network.n):
            row = reader.row(network, node)
            self.hops.add(None if row is None else bin(row[2]).count("1") - 1)
        self.library.run(data)
        whole = 20 * network.n + 4 * (1 if network.n <= 25 else 2)
        for base in bases:
            for room in (whole, whole - 1, *rooms):
                self.write(what, values, base, room)
            self.answers(what, response.messages(base, values), base, network.n, 0, values)
        return values

    # The program

    def hold(self, what, words, data, out, err, given="whole", shell=None):
        """Starts the program and holds what it prints. Where err has no end of line, it is how the one line has to begin."""
        before = () if shell is None else ("sh", "-c", shell, "sh")
        status, printed, errors = started([*before, self.program, *words], data, given)
        self.hangs += status is None
        if err and not err.endswith(b"\n") and errors.startswith(err) and errors.find(b"\n") == len(errors) - 1:
            errors = err
        case = b" ".join(word[:100] for word in words), shell, given, len(data), data[:300]
        self.same("rip, " + what, case, (0, out, err), (status, printed, errors))

    def prints(self, what, words, data=b"", given="whole"):
        """Holds the program to response.py."""
        out, err = response.printed(words, data)
        if err.startswith(b"stopped"):
            self.seen["stopped"].add(int(err.split()[1]))
        self.hold(what, words, data, out, err, given)
        return out


def shown(value):
    if isinstance(value, (tuple, list)):
        return " ".join(map(shown, value))
    if isinstance(value, bytes):
        text = value.decode("latin-1")
        if text.isascii() and text.rstrip("\n").isprintable():
            return repr(text)
        return value.hex() if len(value) <= len(PATTERN) else f"{value[:100].hex()} and so on, {len(value)} bytes"
    return str(value)


# Starting the program


def parts(data, given):
    """The parts of an input, with a pause after each."""
    if given == "bytes":
        return [data[at : at + 1] for at in range(len(data))]
    if given == "parts":
        return [data[: len(data) // 2], data[len(data) // 2 :]]
    return [data]


def give(pipe, data, given, ended):
    """Writes the input as asked. A program that ends early breaks the pipe; that is no fault."""
    try:
        with pipe:
            for part in parts(data, given):
                pipe.write(part)
                pipe.flush()
                time.sleep(0.0003 if given == "bytes" else 0.004)
            while given == "endless" and not ended.is_set():
                pipe.write(data[-1:] * 1000)
            if given == "open":
                ended.wait()
    except BrokenPipeError:
        pass


def started(command, data, given):
    """Exit status (None for a hang), standard output and standard error of a command."""
    pipes = {"stdout": subprocess.PIPE, "stderr": subprocess.PIPE}
    if given in ("file", "folder", "zeros"):
        with tempfile.TemporaryFile() as file:
            file.write(data)
            file.seek(0)
            other = {"folder": "/", "zeros": "/dev/zero"}.get(given)
            lent = os.open(other, os.O_RDONLY) if other else os.dup(file.fileno())
            child = subprocess.Popen(command, stdin=lent, **pipes)
            os.close(lent)
            return end(child)
    child = subprocess.Popen(command, stdin=subprocess.PIPE, **pipes)
    if given == "whole":
        return end(child, data)
    pipe, child.stdin = child.stdin, None
    ended = threading.Event()
    writer = threading.Thread(target=give, args=(pipe, data, given, ended))
    writer.start()
    try:
        return end(child)
    finally:
        ended.set()
        writer.join()


def end(child, data=None):
    try:
        printed, errors = child.communicate(data, timeout=LIMIT)
        return child.returncode, printed, errors
    except subprocess.TimeoutExpired:
        child.kill()
        return None, *child.communicate()


# Networks


def chain(n, order, rounds, missing=()):
    """A run: the nodes in this order, an arc each way between neighbours but those missing, origin the first of them, and full rounds."""
    network = reader.Network(n, order[0])
    for k, (a, b) in enumerate(zip(order, order[1:])):
        if k not in missing:
            network.cost[a, b] = network.cost[b, a] = 1 + k % 3
    return reader.image(network) + b"\6" * rounds


def star(n, origin, rounds):
    """A run: an arc from the origin to each node and back."""
    network = reader.Network(n, origin)
    for node in range(n):
        if node != origin:
            network.cost[origin, node] = network.cost[node, origin] = 9
    return reader.image(network) + b"\6" * rounds


def false_rows(rng, n, origin, ones):
    """An image without arcs whose relays have rows with so many ones in their lists, no route for 0; ones is a function of the node."""
    network = reader.Network(n, origin)
    for node in range(n):
        count = ones(node)
        if node != origin and count > 0:
            others = rng.sample([y for y in range(n) if y != node], count - 1)
            predecessor = rng.choice([y for y in range(n) if y != node])
            network.rows[node] = rng.randrange(1, reader.MOST_LABEL + 1), predecessor, sum(map(reader.bit, [node, *others]))
    return reader.image(network)


def some_bases(rng):
    return [*BASES, rng.randrange(1 << 24) << 8]


def fixed_cases(trial):
    """The four-node field and a chain, with their messages written out."""
    base = b"10.32.7.0"
    header = "02020000"
    entry = "00020000" "0a2007%02x" "ffffffff" "00000000" "000000%02x"
    image = "0104000200010001020003000402010000010201020001020201000102020300010203000004020302000100"
    field = bytes.fromhex(image + "06060606" + "0200010000" + "0201000000" + "060606060606")
    out = bytes.fromhex(header + entry % (1, 1) + entry % (2, 4) + entry % (3, 3) + entry % (4, 2))
    trial.same("the reference on the field", field, (out, b""), response.printed([base], field))
    trial.hold("field", [base], field, out, b"")
    trial.hold("field", [b"-r", base, b"4"], out, b"0 1\n1 4\n2 3\n3 2\n", b"")
    run = chain(32, range(32), 31)
    values = [*range(1, 16), *[16] * 17]
    entries = [entry % (node + 1, value) for node, value in enumerate(values)]
    out = bytes.fromhex(header + "".join(entries[:25]) + header + "".join(entries[25:]))
    assert len(out) == MOST_BYTES
    trial.same("the reference on a chain", run, (out, b""), response.printed([base], run))
    trial.hold("chain", [base], run, out, b"")
    trial.hold("chain", [b"-r", base, b"32"], out, b"".join(b"%d %d\n" % line for line in enumerate(values)), b"")


def network_cases(trial):
    """Every n and every origin: fresh, and with false rows of every count of hops; chains, stars and lost routes for every n."""
    rng = trial.rng
    for n in range(1, MOST_NODES + 1):
        for origin in range(n):
            trial.network("fresh", false_rows(rng, n, origin, lambda node: 0), [rng.choice(some_bases(rng))])
            shift = rng.randrange(n + 1)
            trial.network("false rows", false_rows(rng, n, origin, lambda node: (node + shift) % (n + 1)), [rng.choice(some_bases(rng))])
        for ones in sorted({1, 14, 15, 16, 17, n} & set(range(1, n + 1))):
            trial.network("equal rows", false_rows(rng, n, rng.randrange(n), lambda node: ones), some_bases(rng))
        mixed = rng.sample(range(n), n)
        runs = [
            chain(n, range(n), n - 1),
            chain(n, range(n - 1, -1, -1), n),
            chain(n, mixed, n + 2),
            chain(n, mixed, n // 2),
            chain(n, mixed, n, {rng.randrange(n)}),
            star(n, rng.randrange(n), 2),
            reader.image(damaged.some_network(rng, n, 2 / n)) + b"\6" * rng.choice([0, 1, 3]),
        ]
        for k, data in enumerate(runs):
            trial.network("run", data, some_bases(rng))
            if k % 2 == 0:
                base = response.dotted(rng.choice(some_bases(rng)))
                out = trial.prints("run", [base], data)
                trial.prints("messages", [b"-r", base, b"%d" % n], out)


def room_cases(trial):
    """Outputs of every length, with bytes around them, and at the end of their pages; other words for n; bases."""
    rng = trial.rng
    for n in range(1, MOST_NODES + 1):
        data = false_rows(rng, n, rng.randrange(n), lambda node: rng.randrange(n + 1))
        values = trial.network("rooms", data, BASES, (MOST_BYTES, MOST_BYTES + 1, 0))
        whole = len(response.messages(0, values))
        for room in range(whole + 3):
            trial.write("room", values, rng.choice(BASES), room)
            trial.write("room", values, rng.choice(BASES), room, True)
    data = false_rows(rng, 32, 7, lambda node: 1 + (5 * node) % 32)
    values = trial.network("words", data, BASES)
    # Words that no call made: n of 0 has no messages, n above 32 counts as 32, and fewer nodes are the first ones.
    for word in [*range(MOST_NODES + 3), 255, 256, 257, 288, 65_536, 65_537, 1 << 31, (1 << 31) + 1, (1 << 32) - 1]:
        trial.library.net[N_WORD] = word
        for base, room in itertools.product([0, 0x0A200700, 0x0A200701, 0xFFFFFFFF], [0, 4, 24, 503, 504, 647, 648, 649]):
            trial.write(f"n word {word}", values[:word], base, room)
    for n in (0, 1, 26, 32):
        trial.library.net[N_WORD] = n
        for last, start in itertools.product(range(256), [0, 0x0A200700, 0xFFFFFF00, rng.randrange(1 << 24) << 8]):
            trial.write("base", values[:n], start + last, rng.choice([0, MOST_BYTES]))


# Damaged messages

# Bytes of a header, of an entry, and of a full message.
HEADER = 4
ENTRY = 20
FULL = HEADER + 25 * ENTRY
# The place of the metric in an entry.
METRIC = 16


def some_metrics(rng, n):
    return [rng.choice([1, 15, 16, rng.randrange(1, 17), rng.randrange(1, 17)]) for _ in range(n)]


def header_places(n):
    return [0] if n <= 25 else [0, FULL]


def entry_places(n):
    return [HEADER * (1 + node // 25) + ENTRY * node for node in range(n)]


def changed(data, at, part):
    return data[:at] + part + data[at + len(part) :]


def byte_cases(trial):
    """Every byte changed to other values, those of metrics to all: accepted exactly where the metric is 1 to 16 then."""
    rng = trial.rng
    for n in (1, 2, 24, 25, 26, 32):
        base = rng.choice(some_bases(rng))
        metrics = some_metrics(rng, n)
        data = response.messages(base, metrics)
        in_metric = {at + METRIC + k: (node, k) for node, at in enumerate(entry_places(n)) for k in range(4)}
        for at, byte in enumerate(data):
            if at in in_metric:
                node, k = in_metric[at]
                for value in range(256):
                    metric = int.from_bytes(changed(metrics[node].to_bytes(4, "big"), k, bytes([value])), "big")
                    right = 1 <= metric <= 16
                    after = [*metrics[:node], metric, *metrics[node + 1 :]] if right else []
                    trial.answers("byte of a metric", changed(data, at, bytes([value])), base, n, 0 if right else 14, after)
            else:
                values = {0, 1, 2, 3, 255, byte ^ 128, (byte + 1) % 256, (byte - 1) % 256, rng.randrange(256)}
                for value in sorted(values - {byte}):
                    trial.answers("byte", changed(data, at, bytes([value])), base, n, 14, [])


# Values of fields: the place in a header or an entry, the length, and the values.
HEADER_VALUES = [
    (0, 1, [0, 1, 3, 4, 255]),
    (1, 1, [0, 1, 3, 4, 255]),
    (2, 2, [1, 2, 255, 256, 512, 65_535]),
]
ENTRY_VALUES = [
    (0, 2, [0, 1, 3, 10, 258, 512, 514, 65_535]),
    (2, 2, [1, 2, 255, 256, 32_768, 65_535]),
    (8, 4, [0, 1, 0xFFFFFF00, 0xFFFFFFFE, 0x7FFFFFFF, 0x00FFFFFF, 0xFF00FFFF]),
    (12, 4, [1, 2, 255, 256, 0x0A200700, 0x0A200701, 0xFFFFFF00, 1 << 31, 0xFFFFFFFF]),
    (METRIC, 4, [*range(20), 32, 255, 256, 257, 272, 65_536, 65_537, 1 << 24, (1 << 24) + 1, 1 << 28, 1 << 31, (1 << 31) + 1, 0xFFFFFFFF]),
]


def field_cases(trial):
    """Every field of every header and entry set to values at and past its limits, and addresses to those of other nodes and bases."""
    for n, base in itertools.product((1, 2, 25, 26, 32), BASES):
        data = response.messages(base, some_metrics(trial.rng, n))
        for start in header_places(n):
            for at, length, values in HEADER_VALUES:
                for value in values:
                    trial.read("header", changed(data, start + at, value.to_bytes(length, "big")), base, n)
        for start in entry_places(n):
            for at, length, values in ENTRY_VALUES:
                for value in values:
                    trial.read("field", changed(data, start + at, value.to_bytes(length, "big")), base, n)
            own = int.from_bytes(data[start + 4 : start + 8], "big")
            others = [0, base, own - 1, own + 1, own ^ 1 << 8, own ^ 1 << 31, own & 255, base + 1, base + n, base + n + 1, base + 255]
            for address in others:
                trial.read("address", changed(data, start + 4, address.to_bytes(4, "big")), base, n)
            trial.read("address", changed(data, start + 4, data[start + 4 : start + 8][::-1]), base, n)


def joined(entries):
    """Entries in messages of 25."""
    parts = [entries[at : at + 25] for at in range(0, len(entries), 25)]
    return b"".join(response.header() + b"".join(part) for part in parts)


def split(entries, *sizes):
    """Entries in messages of these sizes."""
    left = iter(entries)
    return b"".join(response.header() + b"".join(itertools.islice(left, size)) for size in sizes)


def length_cases(trial):
    """Messages cut at every place, the input at the end of its pages, and lengthened at both ends."""
    rng = trial.rng
    header = response.header()
    for n in range(1, MOST_NODES + 1):
        base = rng.choice(some_bases(rng))
        data = response.messages(base, some_metrics(rng, n))
        for at in range(len(data) + 1):
            trial.read("cut", data[:at], base, n, True)
        trial.read("at the start of its pages", data, base, n, False)
        last, following = data[-ENTRY:], response.entry(base, n, 1)
        parts = [header, last, following, header + following, data, bytes(65_536), b"\2" * 70_000]
        parts += [bytes(k) for k in range(1, 30)] + [header[:k] for k in (1, 2, 3)] + [last[:k] for k in (1, 4, 19)]
        for part in parts:
            trial.read("lengthened", data + part, base, n)
            trial.read("with bytes before", part + data, base, n)


def order_of_entries_cases(trial):
    """Entries exchanged, doubled, missing or in other messages; messages exchanged, doubled, missing or empty; another n, another base."""
    rng = trial.rng
    header = response.header()
    for n in range(1, MOST_NODES + 1):
        base = rng.choice(some_bases(rng))
        values = some_metrics(rng, n)
        data = response.messages(base, values)
        entries = [data[at : at + ENTRY] for at in entry_places(n)]
        for node in range(n):
            trial.read("entry missing", joined(entries[:node] + entries[node + 1 :]), base, n)
            trial.read("entry doubled", joined(entries[: node + 1] + entries[node:]), base, n)
            for other in {(node + 1) % n, rng.randrange(n), n - 1} - {node}:
                exchanged = entries.copy()
                exchanged[node], exchanged[other] = exchanged[other], exchanged[node]
                trial.read("entries exchanged", joined(exchanged), base, n)
        for first in range(n + 1):
            number = trial.read("two messages", split(entries, first, n - first), base, n)
            assert (number == 0) == (n > 25 and first == 25)
        trial.read("one message", split(entries, n), base, n)
        trial.read("one entry each", split(entries, *[1] * n), base, n)
        trial.read("no header", b"".join(entries), base, n)
        for at in sorted({len(data), *header_places(n), *entry_places(n)}):
            trial.read("empty message", data[:at] + header + data[at:], base, n)
        trial.read("messages exchanged", data[FULL:] + data[:FULL], base, n)
        trial.read("last message alone", data[FULL:], base, n)
        trial.read("first message twice", data[:FULL] + data, base, n)
        for other in range(MOST_NODES + 2):
            trial.read("another n", data, base, other)
        for other in {0, 256, 0xFFFFFF00, base ^ 256, base ^ 1 << 31, base ^ 1 << 16, rng.randrange(1 << 24) << 8} - {base}:
            trial.read("another base", data, other, n)
            trial.read("last message of another base", data[:FULL] + response.messages(other, values)[FULL:], base, n)
            trial.read("last entry of another base", data[:-ENTRY] + response.entry(other, n - 1, 1), base, n)


def several_cases(trial):
    """Several faults at once, 13 before 3 before 14 in reading; every last byte of a base; n of 0 and above 32."""
    rng = trial.rng
    counts = [0, 1, 2, 25, 26, 31, 32, 33, 34, 64, 255, 256, 257, 288, 65_536, 65_537, 65_568, 1 << 31, (1 << 31) + 1, (1 << 32) - 1]
    bases = [*BASES, 1, 0x0A200701, 0x0A200710, 0x0A200780, 0x0A2007FF, 0xFFFFFFFF]
    for n, base in itertools.product(counts, bases):
        nodes = min(n % 256, MOST_NODES)
        data = response.messages(base & ~255, some_metrics(rng, nodes))
        inputs = [data, b"", data[:-1], data + b"\0", changed(data, 1, b"\1"), response.header(), bytes(648), bytes(70_000)]
        # What a base with another last byte would be written as, were it taken.
        inputs += [response.messages(base, some_metrics(rng, nodes))] if base + nodes < 1 << 32 else []
        for part in inputs:
            trial.read("order", part, base, n)
    for n in (1, 26, 32):
        data = response.messages(0x0A200700, some_metrics(rng, n))
        for last in range(256):
            trial.read("base", data, 0x0A200700 + last, n)
            trial.read("base", response.messages(0x0A200700 + last, some_metrics(rng, n)), 0x0A200700 + last, n)


def damage(rng, data, n):
    """One change to messages, which may be damaged already."""
    at = rng.randrange(len(data) + 1)
    kind = rng.randrange(8)
    if kind == 0:
        return data[:at] + rng.randbytes(rng.choice([1, 4, 20])) + data[at:]
    if kind == 1:
        return data[:at] + data[at + rng.choice([1, 4, 20, 24]) :]
    if kind == 2:
        return data[:at]
    if kind == 3:
        place = rng.choice(entry_places(n)) + METRIC
        return changed(data, place, rng.randrange(19).to_bytes(4, "big"))
    if kind == 4:
        start, length, values = rng.choice(ENTRY_VALUES)
        return changed(data, rng.choice(entry_places(n)) + start, rng.choice(values).to_bytes(length, "big"))
    if kind == 5:
        return changed(data, at, bytes([rng.choice([0, 1, 2, 16, 17, 255, rng.randrange(256)])]))
    # A bit in one place, or the same bit in two entries.
    bit = 1 << rng.randrange(8)
    for place in {at, at + ENTRY * rng.randrange(n)} if kind == 6 else {at}:
        data = changed(data, place, bytes(byte ^ bit for byte in data[place : place + 1]))
    return data


def random_cases(trial, count):
    """Random networks, runs of which many are refused, and messages with one to three changes."""
    rng = trial.rng
    for k in range(count):
        network = damaged.random_network(rng)
        image = reader.image(network)
        base = rng.choice(some_bases(rng))
        values = trial.network("random", image, [base])
        out = response.messages(base, values)
        for _ in range(40):
            data = out
            for _ in range(rng.choice([1, 1, 2, 3])):
                data = damage(rng, data, network.n)
            trial.read("damaged", data, base, network.n)
        words = [b"-r", response.dotted(base), b"%d" % network.n]
        if k % 2 == 0:
            given = rng.choice(["whole", "whole", "whole", "file", "parts"])
            trial.prints("run", [response.dotted(base)], damaged.some_run(rng, network, image), given)
            trial.prints("damaged messages", words, data, given)


# The program


USAGES = [
    [],
    [b""],
    [b"-r"],
    [b"-r", b"10.0.0.0"],
    [b"10.0.0.0", b"1"],
    [b"10.0.0.0", b"10.0.0.0"],
    [b"10.0.0.0", b""],
    [b"10.0.0.0", b"-r"],
    [b"10.0.0.0", b"-r", b"1"],
    [b"10.0.0.0", b"1", b"-r"],
    [b"10.0.0.0", b"10.0.0.0", b"1"],
    [b"", b"10.0.0.0", b"1"],
    [b"-R", b"10.0.0.0", b"1"],
    [b"-r ", b"10.0.0.0", b"1"],
    [b"-", b"10.0.0.0", b"1"],
    [b"--r", b"10.0.0.0", b"1"],
    [b"-rr", b"10.0.0.0", b"1"],
    [b"-r10.0.0.0", b"1"],
    [b"-r", b"1", b"10.0.0.0"],
    [b"-r", b"10.0.0.0", b"1", b""],
    [b"-r", b"10.0.0.0", b"1", b"1"],
    [b"-r", b"-r", b"10.0.0.0", b"1"],
    [b"--", b"10.0.0.0"],
    [b"-h"],
    [b"10.0.0.0"] * 100,
    [b"-r", b"10.0.0.1", b"x"],
    [b"-r", b"10.0.0.1", b""],
    [b"-r", b"10.0.0.1", b"01"],
    [b"-r", b"10.0.0.1", b"1" * 4_097],
    [b"1" * 4_096],
    [b"1" * 5_000],
    [b"-r" + b" " * 5_000, b"10.0.0.0", b"1"],
]
NO_BASES = [
    b" 10.0.0.0", b"10.0.0.0 ", b"10.0.0.0\n", b"10.0.0", b"10.0.0.", b".10.0.0.0", b"10.0.0.0.", b"10.0.0.0.0", b"10..0.0", b"10...0", b"...", b"....",
    b"10.0.0.256", b"256.0.0.0", b"10.256.0.0", b"10.0.256.0", b"10.0.0.1000", b"266.0.0.0", b"65546.0.0.0", b"4294967306.0.0.0", b"10.0.0.4294967296",
    b"18446744073709551626.0.0.0", b"010.0.0.0", b"10.00.0.0", b"10.0.00.0", b"10.0.0.00", b"10.0.01.0", b"+10.0.0.0", b"10.0.0.+0", b"-1.0.0.0", b"10.0.0.-0",
    b"+1", b"10", b"167772160", b"0x0a.0.0.0", b"0xa000000", b"a.0.0.0", b"0a000000", b"1e1.0.0.0", b"10,0,0,0", b"10.0.0.0/32", b"10.0.0.0x", b"10.0.0.x",
    b"10 .0.0.0", b"10. 0.0.0", b"10.0.0.:", b"1/.0.0.0", b"\xb2.0.0.0", b"10.0.0.\xff", b"\xff",
]  # fmt: skip
NO_COUNTS = [
    b"", b"00", b"01", b"032", b"-1", b"-0", b"+1", b"1 ", b" 1", b"1\n", b"1.", b"1.0", b"1,0", b"x", b"0x1", b"1x", b"1e1", b"/", b":", b"1:", b"\xb2",
    b"0" * 4_096, b"1" + b"0" * 4_096, b"1" + b"0" * 100_000, b"5" * 4_097,
]  # fmt: skip
# Counts that can be read and are above 32.
GREAT_COUNTS = [
    b"33", b"99", b"100", b"255", b"256", b"257", b"%d" % (2**16 + 1), b"%d" % (2**31 + 1), b"%d" % (2**32), b"%d" % (2**32 + 1), b"%d" % (2**63 + 1),
    b"%d" % (2**64), b"%d" % (2**64 + 1), b"%d" % (2**128 + 1), b"9" * 4_096, b"1" + b"0" * 4_094 + b"1",
]  # fmt: skip
ONE_NODE = b"\1\1\0\0"


def argument_cases(trial):
    """Arguments that can't be read, and numbers at and past their limits; the input is right for the base and n that are nearest."""
    usage = response.USAGE
    out = response.messages(0x0A000000, [1])
    for words in USAGES:
        trial.hold("arguments", words, ONE_NODE, b"", usage)
    for word in NO_BASES:
        trial.hold("base", [word], ONE_NODE, b"", usage)
        trial.hold("base", [b"-r", word, b"1"], out, b"", usage)
    for word in NO_COUNTS:
        trial.hold("count", [b"-r", b"10.0.0.0", word], out, b"", usage)
    for word in [b"0", *GREAT_COUNTS]:
        trial.hold("count", [b"-r", b"10.0.0.0", word], out, b"", b"refused 3\n")
    trial.hold("count", [b"-r", b"10.0.0.1", b"9" * 4_096], out, b"", b"refused 13\n")
    for base in (b"0.0.0.0", b"255.255.255.0", b"1.2.3.0", b"9.99.199.0", b"100.200.249.0", b"250.25.2.0"):
        values = response.base_of(base)
        trial.hold("base", [base], ONE_NODE, response.messages(values, [1]), b"")
        trial.hold("base", [b"-r", base, b"1"], response.messages(values, [16]), b"0 16\n", b"")
    # 13 comes before the input is looked at, before 3 and before 14.
    long = bytes(response.MOST_INPUT + 1)
    for last in (1, 2, 9, 10, 16, 99, 100, 127, 128, 199, 200, 249, 250, 254, 255):
        base = b"10.0.0.%d" % last
        for data in (ONE_NODE, b"", b"\0", long):
            trial.hold("13", [base], data, b"", b"refused 13\n")
        for n, data in ((b"1", out), (b"1", response.messages(0x0A000000 + last, [1])), (b"0", out), (b"33", b""), (b"1", b""), (b"1", long)):
            trial.hold("13", [b"-r", base, n], data, b"", b"refused 13\n")
    for n, data in ((b"0", b""), (b"33", b""), (b"0", long), (b"33", out + b"\0"), (b"34", long)):
        trial.hold("3", [b"-r", b"10.0.0.0", n], data, b"", b"refused 3\n")
    # Neither needs an input.
    for words, err in (([], usage), ([b"-r", b"10.0.0.0", b"01"], usage), ([b"10.0.0.1"], b"refused 13\n")):
        for given in ("open", "folder", "zeros"):
            trial.hold("no input needed", words, b"", b"", err, given)


def input_cases(trial):
    """The ways to give an input, inputs that are empty, about the limit, too long, endless or unreadable, and outputs that can't be written."""
    rng = trial.rng
    base = b"10.32.7.0"
    limit = response.MOST_INPUT
    run = chain(32, rng.sample(range(32), 32), 20)
    out = trial.prints("run", [base], run)
    read = [b"-r", base, b"32"]
    for given in ("file", "whole", "parts", "bytes"):
        for data in (run, run[:-1] + b"\0", run[:100], b""):
            trial.prints("run", [base], data, given)
        for data in (out, out[:-1], out + b"\0", b""):
            trial.prints("messages", read, data, given)
    for start, length in itertools.product((ONE_NODE, b"\0", run), (limit - 1, limit, limit + 1, limit + 2, 20 * limit)):
        data = start + (b"\6" if start == ONE_NODE else b"\0") * (length - len(start))
        for given in ("whole", "file", "parts"):
            trial.prints("about the limit", [base], data, given)
    # The largest image, and the longest run, whose last byte is the round that brings one more node a route.
    for rounds in (0, 2):
        trial.prints("largest image", [base], reader.image(damaged.some_network(rng, 32, 1)) + b"\6" * rounds)
    image = chain(32, range(32), 0)
    changes = (limit - len(image) - 3) // 5
    longest = image + b"\2\x1f\0\0\1" * changes
    longest += b"\6" * (limit - len(longest))
    assert trial.prints("longest run", [base], longest) != trial.prints("longest run, cut", [base], longest[:-1])
    for start in (ONE_NODE + b"\6", b"\0", b"y\n", run):
        trial.hold("without end", [base], start, b"", b"too long\n", "endless")
        trial.hold("without end", read, start, b"", b"refused 14\n", "endless")
    trial.hold("without end", read, out, b"", b"refused 14\n", "endless")
    trial.hold("without end", [base], b"", b"", b"too long\n", "zeros")
    trial.hold("without end", read, b"", b"", b"refused 14\n", "zeros")
    trial.hold("too long and not closed", [base], ONE_NODE + b"\6" * limit, b"", b"too long\n", "open")
    for more in (b"\0", response.header(), out, bytes(1_000), bytes(70_000), bytes(1_000_000)):
        for given in ("whole", "file"):
            trial.hold("lengthened", read, out + more, b"", b"refused 14\n", given)
    # What can't be read or written is said in one line.
    for words in ([base], read):
        trial.hold("a folder", words, b"", b"", b"rip: standard input: ", "folder")
        trial.hold("no standard input", words, b"", b"", b"rip: standard input: ", "whole", 'exec "$@" <&-')
    for words, data in (([base], run), (read, out)):
        for shell in ('exec "$@" >/dev/full', 'exec "$@" >&-'):
            trial.hold("no standard output", words, data, b"", b"rip: standard output: ", "file", shell)
    with tempfile.NamedTemporaryFile() as file:
        shell = f"trap '' XFSZ; ulimit -f 1; exec \"$@\" >{file.name}"
        trial.hold("a file of at most 512 bytes", [base], run, b"", b"rip: standard output: ", "file", shell)
    refused = [([base], b"\0", b"stopped 2 at 0\n"), ([base], bytes(limit + 1), b"too long\n"), (read, b"", b"refused 14\n"), ([], b"", response.USAGE)]
    for words, data, err in refused:
        for other in (">/dev/full", ">&-"):
            trial.hold("no standard output needed", words, data, b"", err, "file", f'exec "$@" {other}')
        for other in ("2>/dev/full", "2>&-"):
            trial.hold("no standard error", words, data, b"", b"", "file", f'exec "$@" {other}')


def stored_cases(trial):
    """The stored inputs of `routes`: the same refusals, and messages where there is none."""
    folder = os.path.join(os.path.dirname(os.path.abspath(__file__)), "routes")
    names = sorted(glob.glob(os.path.join(folder, "*.hex")))
    assert names
    for name in names:
        with open(name) as file:
            data = bytes.fromhex("".join(line for line in file if not line.startswith("#")))
        with open(name[:-4] + ".txt") as file:
            last = file.read().splitlines()[-1]
        _, err = response.printed([b"10.32.7.0"], data)
        refusal = last + "\n" if last.startswith(("stopped", "too long")) else ""
        trial.same("the reference on a stored input", name, refusal.encode(), err)
        trial.prints(os.path.basename(name), [b"10.32.7.0"], data)


def damaged_program_cases(trial):
    """Bytes of messages changed, cut and lengthened, through the program."""
    rng = trial.rng
    for n, tried in ((1, None), (2, None), (32, 40)):
        base = rng.choice(some_bases(rng))
        data = response.messages(base, some_metrics(rng, n))
        words = [b"-r", response.dotted(base), b"%d" % n]
        for at in range(len(data)) if tried is None else rng.sample(range(len(data)), tried):
            trial.prints("byte", words, changed(data, at, bytes([data[at] ^ rng.choice([1, 2, 16, 128])])))
        for at in rng.sample(range(len(data)), 10):
            trial.prints("cut", words, data[:at])
        for other in (1, 2, 31, 32, 33):
            trial.prints("another n", [*words[:2], b"%d" % other], data)
        trial.prints("another base", [b"-r", response.dotted(base ^ 256), words[2]], data)


def main(arguments):
    faulthandler.enable()
    library, program = arguments[:2]
    seed = int(arguments[2]) if len(arguments) > 2 else 1
    count = int(arguments[3]) if len(arguments) > 3 else 2_000
    print(f"seed {seed}, {count} random networks", flush=True)
    trial = Trial(Library(library), os.path.abspath(program).encode(), random.Random(seed))
    try:
        fixed_cases(trial)
        network_cases(trial)
        room_cases(trial)
        byte_cases(trial)
        field_cases(trial)
        length_cases(trial)
        order_of_entries_cases(trial)
        several_cases(trial)
        stored_cases(trial)
        argument_cases(trial)
        input_cases(trial)
        damaged_program_cases(trial)
        random_cases(trial, count)
        for name, numbers in NUMBERS.items():
            trial.same(f"the numbers of {name} that were seen", "", numbers, trial.seen[name])
        trial.same("the hops that were seen", "", {None, *range(MOST_NODES)}, trial.hops)
    except Stopped:
        pass
    print(f"messages: {trial.checks} checks, {trial.failures} failed")
    return 1 if trial.failures else 0


if __name__ == "__main__":
    sys.exit(main(sys.argv[1:]))
