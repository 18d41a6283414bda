"""The proved calls beside reader.py on networks, damaged images and runs made from a seed.

    damaged.py LIBRARY [SEED [COUNT]]

LIBRARY is a shared object of the crate `bench`. COUNT is the number of random damaged images; the other cases are made in proportion.
Prints how often each call answered each number. Exits with status 1 where an answer differs, or where a number that a call can give was not seen.
"""

import ctypes
import itertools
import random
import sys

import reader

# The words of a network, and which of them is n.
WORDS = 3232
N_WORD = 0
# The receivers that arcs are asked for: every node, and numbers past n.
RECEIVERS = (*range(34), 63, 255, 256, 65_536, 2**31, 2**32 - 1)
MOST_SHOWN = 10
# What a lent output holds before a call.
PATTERN = bytes((37 * i + 11) % 256 for i in range(17_000))
FILLING = 0xA5A5A5A5A5A5A5A5
# The numbers that each call can give.
NUMBERS = {
    "open": {0, 1, 2, 3, 4, 5, 10, 11, 12},
    "run": {0, 1, 2, 3, 4, 5, 7, 10, 11, 12},
    "image": {0, 6},
    "route": {0, 3, 6, 8, 9},
    "arcs": {0, 3},
    "fresh": {0, 3},
    "change": {0, 3},
    "grade": {0, 3},
    "round": {0, 1, 3, 7},
    "place_row": {0, 3, 5, 10, 11, 12},
    "place_report": {0, 3, 5, 10, 12},
}
# The largest of them.
MOST_NUMBER = 12


class Library:
    """The proved calls, with their answers as reader.py gives them."""

    def __init__(self, path):
        self.calls = ctypes.CDLL(path)
        self.net = (ctypes.c_uint32 * WORDS)()
        self.answer = (ctypes.c_uint64 * 3)()
        self.calls.bench_arcs.argtypes = ctypes.c_void_p, ctypes.c_uint32, ctypes.c_void_p
        self.calls.bench_arcs.restype = None
        # The answers for all receivers, with a word after each.
        self.found = (ctypes.c_uint64 * (3 * len(RECEIVERS)))()
        self.out = ctypes.create_string_buffer(len(PATTERN))

    def network(self):
        return bytes(self.net)

    def fill(self):
        """Words that are no network."""
        ctypes.memset(self.net, 0xA5, 4 * WORDS)

    def opened(self, name, data):
        """Opening or a run: three numbers; the network is in self.net."""
        self.fill()
        getattr(self.calls, "bench_" + name)(data, ctypes.c_uint64(len(data)), self.answer, self.net)
        return tuple(self.answer)

    def written(self, name, room, *node):
        """Image writing or a route: number, length, the bytes written, and whether every other byte is as it stood."""
        ctypes.memmove(self.out, PATTERN, len(PATTERN))
        arguments = [ctypes.c_uint32(node[0])] if node else []
        getattr(self.calls, "bench_" + name)(self.net, *arguments, self.out, ctypes.c_uint64(room), self.answer)
        number, length = self.answer[0], self.answer[1]
        kept = min(length, room)
        return number, length, self.out.raw[:kept], self.out.raw[kept:] == PATTERN[kept:]

    def arcs(self):
        """Number and word for each of RECEIVERS, and whether every other word is as it stood."""
        before = self.network()
        ctypes.memset(self.found, 0xA5, 24 * len(RECEIVERS))
        net, answer = ctypes.addressof(self.net), ctypes.addressof(self.found)
        for receiver in RECEIVERS:
            self.calls.bench_arcs(net, receiver, answer)
            answer += 24
        found = self.found[:]
        return list(zip(found[0::3], found[1::3])), set(found[2::3]) == {FILLING} and self.network() == before

    def called(self, name, arguments):
        """A call on the network in self.net, with numbers or with a list of words: the number."""
        if name == "round":
            (words,) = arguments
            lent = (ctypes.c_uint32 * len(words))(*words), ctypes.c_uint64(len(words))
        else:
            lent = map(ctypes.c_uint32, arguments)
        return getattr(self.calls, "bench_" + name)(self.net, *lent) & 255


class Comparison:
    def __init__(self, library, rng):
        self.library = library
        self.rng = rng
        self.cases = 0
        self.differences = 0
        self.seen = {name: [0] * (MOST_NUMBER + 1) for name in NUMBERS}
        # The image of the network that the library holds.
        self.held = b""

    def same(self, name, number, case, ours, theirs):
        self.cases += 1
        self.seen[name][number] += 1
        if ours == theirs:
            return
        self.differences += 1
        if self.differences <= MOST_SHOWN:
            print(f"{name} differs\n  case    {case}\n  reader  {shown(ours)}\n  library {shown(theirs)}")

    def image(self, network, room):
        """Image writing into room bytes; the network has to stay."""
        before = self.library.network()
        number, image = reader.write(network, room)
        theirs = self.library.written("image", room) + (self.library.network() == before,)
        self.same("image", number, f"network {reader.image(network).hex()} room {room}", (number, len(image), image, True, True), theirs)

    def route(self, network, node, room):
        before = self.library.network()
        number, nodes = reader.route(network, node, room)
        theirs = self.library.written("route", room, node) + (self.library.network() == before,)
        self.same("route", number, f"network {reader.image(network).hex()} node {node} room {room}", (number, len(nodes), nodes, True, True), theirs)

    def net(self, name, number, case, network, ours, theirs):
        """The answer and, by its image and its arcs, the network."""
        self.held = reader.image(network)
        arcs = [reader.arcs(network, receiver) for receiver in RECEIVERS]
        for refused, _ in arcs:
            self.seen["arcs"][refused] += 1
        written = self.library.written("image", len(self.held))[0:3:2]
        self.same(name, number, case, (*ours, 0, self.held, arcs, True), (*theirs, *written, *self.library.arcs()))

    def open(self, data):
        number, place, used, network = reader.open(data)
        theirs = self.library.opened("open", data)
        self.net("open", number, data.hex(), network, (number, place, used), theirs)
        return number, network

    def run(self, data):
        number, place, rounds, network = reader.run(data)
        theirs = self.library.opened("run", data)
        self.net("run", number, data.hex(), network, (number, place, rounds), theirs)
        return number, network

    def fresh(self, n, origin):
        number, network = reader.fresh(n, origin)
        self.library.fill()
        theirs = self.library.called("fresh", (n, origin))
        self.net("fresh", number, (n, origin), network, (number,), (theirs,))
        return network

    def set_n(self, network, word):
        """Another n in the words of the network that the library holds: above 32 it counts as 32, and fewer nodes are the first ones."""
        case = f"network {self.held.hex()} n {word}"
        self.library.net[N_WORD] = word
        network.n = min(word, reader.MOST_NODES)
        for pairs in (network.cost, network.held):
            for pair in [pair for pair in pairs if max(pair) >= network.n]:
                del pairs[pair]
        network.rows = {node: row for node, row in network.rows.items() if node < network.n}
        self.net("arcs", 0, case, network, (), ())

    def outputs(self, network):
        """Outputs of several lengths for the network that the library holds."""
        whole = len(reader.image(network))
        for room in {0, self.rng.randrange(whole), whole - 1, whole, whole + 1, whole + 500}:
            self.image(network, room)
        nodes = range(network.n) if network.n < 8 else self.rng.sample(range(network.n), 6)
        for node in [*nodes, network.n, self.rng.choice([network.n + 1, 32, 255, 256, 2**31, 2**32 - 1])]:
            whole = len(reader.route(network, node, 32)[1])
            for room in {0, max(0, whole - 1), whole, whole + 1, 32, 100}:
                self.route(network, node, room)

    def call(self, name, network, *arguments):
        """A change, a grade, a round, a row or a report on the network that the library holds: refused, every word of it has to stay."""
        before = self.library.network()
        case = f"network {self.held.hex()} {name} {arguments}"
        number = getattr(reader, name)(network, *arguments)
        theirs = self.library.called(name, arguments)
        if number == 0:
            self.net(name, number, case, network, (number,), (theirs,))
        else:
            self.same(name, number, case, (number, True), (theirs, self.library.network() == before))

    def calls(self, network):
        """Changes, grades, rounds, rows and reports with numbers in and out of range."""
        rng = self.rng
        for _ in range(10):
            kind = rng.randrange(5)
            if kind == 0:
                cost = rng.choice([0, 0, 1, 65535, rng.randrange(65536), rng.choice([65536, 2**32 - 1])])
                self.call("change", network, *any_pair(rng, network), cost)
            elif kind == 1:
                value = rng.choice([0, 1, 15, rng.randrange(16), rng.choice([16, 255, 256, 2**32 - 1])])
                self.call("grade", network, *any_pair(rng, network), value)
            elif kind == 2:
                words = some_marks(rng, network)
                if rng.random() < 0.2:
                    words = (words * 2)[: rng.choice([0, 1, 31, 33, 64])]
                self.call("round", network, words)
            elif kind == 3:
                node, predecessor = rng.randrange(network.n + 1), rng.randrange(network.n + 1)
                self.call("place_row", network, node, any_label(rng), predecessor, any_list(rng, network, node))
            else:
                sender, receiver = any_pair(rng, network)
                self.call("place_report", network, sender, receiver, any_label(rng), any_list(rng, network, sender))


def shown(values):
    return " ".join(value.hex() if isinstance(value, bytes) else str(value) for value in values)


# Networks within limits


def some_list(rng, n, node):
    """A list with the node's bit: garbage within limits."""
    few = rng.getrandbits(n) & rng.getrandbits(n)
    return reader.bit(node) | rng.choice([0, few, rng.getrandbits(n), (1 << n) - 1])


def some_network(rng, n, density):
    """Half of the costs and of the labels held are small, so that equal offers are frequent."""
    network = reader.Network(n, rng.randrange(n))
    for sender in range(n):
        for receiver in range(n):
            if sender != receiver and rng.random() < density:
                network.cost[sender, receiver] = rng.choice([1, rng.randrange(1, 4), rng.randrange(1, 4), 65535, rng.randrange(1, 10), rng.randrange(1, 65536)])
                if rng.random() < density:
                    small = rng.randrange(4)
                    great = [reader.MOST_LABEL, rng.randrange(reader.MOST_LABEL + 1), reader.MOST_LABEL - rng.randrange(10)]
                    network.held[sender, receiver] = rng.choice([small, small, small, 0, rng.randrange(30), *great]), some_list(rng, n, sender)
    for node in range(n):
        if node != network.origin and rng.random() < density:
            predecessor = rng.choice([y for y in range(n) if y != node])
            label = rng.choice([1, reader.MOST_LABEL, rng.randrange(1, 30), rng.randrange(1, reader.MOST_LABEL + 1)])
            network.rows[node] = label, predecessor, some_list(rng, n, node)
    for _ in range(rng.choice([0, 0, 1, 5]) if n <= 8 else 0):
        reader.full_round(network)
    return network


def random_network(rng):
    n = rng.choice([1, 2, 2, 3, 3, 3, 4, 4, 4, 5, 5, 6, 7, 8])
    if rng.random() < 0.03:
        n = rng.randrange(9, 33)
        return some_network(rng, n, 2 / n)
    return some_network(rng, n, rng.choice([0.2, 0.5, 0.8, 1, 1]))


# Damage


def starts(image):
    """The offset of each record."""
    found, place = [], 0
    while place < len(image):
        found.append(place)
        place += 1 + reader.BODY[image[place]]
    return found


def split(image):
    places = starts(image) + [len(image)]
    return [image[a:b] for a, b in zip(places, places[1:])]


def odd_byte(rng, network):
    n = network.n
    return rng.choice([0, 1, 2, 3, 4, 5, 6, 7, 8, n - 1, n, n + 1, network.origin, 31, 32, 33, 127, 128, 254, 255, rng.randrange(256)]) % 256


def bit_changed(rng, network, image):
    at = rng.randrange(len(image))
    return image[:at] + bytes([image[at] ^ 1 << rng.randrange(8)]) + image[at + 1 :]


def byte_changed(rng, network, image):
    at = rng.randrange(len(image))
    return image[:at] + bytes([odd_byte(rng, network)]) + image[at + 1 :]


def cut(rng, network, image):
    return image[: rng.randrange(len(image))]


def cut_at_record(rng, network, image):
    return image[: rng.choice(starts(image)) + rng.choice([0, 1, 2])]


def cut_and_ended(rng, network, image):
    return image[: rng.choice(starts(image)) + rng.choice([0, 1])] + b"\0"


def inserted(rng, network, image):
    at = rng.randrange(len(image) + 1)
    return image[:at] + bytes(odd_byte(rng, network) for _ in range(rng.choice([1, 2, 5, 11]))) + image[at:]


def removed(rng, network, image):
    at = rng.randrange(len(image))
    return image[:at] + image[at + rng.choice([1, 2, 5, 11]) :]


def swapped(rng, network, image):
    records = split(image)
    a, b = rng.randrange(len(records)), rng.randrange(len(records))
    if rng.random() < 0.5:
        b = min(a + 1, len(records) - 1)
    records[a], records[b] = records[b], records[a]
    return b"".join(records)


def repeated(rng, network, image):
    records = split(image)
    a = rng.randrange(len(records))
    records.insert(rng.choice([a, rng.randrange(len(records) + 1)]), records[a])
    return b"".join(records)


def record_removed(rng, network, image):
    records = split(image)
    del records[rng.randrange(len(records))]
    return b"".join(records)


def kind_changed(rng, network, image):
    at = rng.choice(starts(image))
    return image[:at] + bytes([rng.choice([0, 1, 2, 3, 4, 5, 6, 7, 8, 255])]) + image[at + 1 :]


def odd_label(rng):
    return rng.choice([0, 1, reader.MOST_LABEL, reader.MOST_LABEL + 1, 65536, 2**32 - 1])


def odd_list(rng, network, nodes, node):
    """Another list: none, without the node's bit, with a bit changed, with the bit after the last node's, all."""
    return rng.choice([0, nodes ^ 1 << node % 32, nodes ^ 1 << rng.randrange(32), nodes | 1 << network.n % 32, 2**32 - 1])


def change_field(rng, network, record):
    """A field of a record set to a value at or past its limit."""
    kind = record[0]
    node = [network.n - 1, network.n, 255, network.origin, rng.randrange(256)]
    if kind == reader.HEADER:
        record[1:3] = rng.choice([[0, 0], [33, 0], [32, 31], [32, 32], [network.n, network.n], [255, 0], [1, 0]])
    elif kind == reader.ARC:
        field = rng.randrange(4)
        if field == 3:
            record[3:5] = rng.choice([0, 1, 256, 65535]).to_bytes(2, "big")
        else:
            record[1 + field % 2] = rng.choice(node + [record[2 - field % 2]])
    else:
        field = rng.randrange(4)
        label_at = 2 if kind == reader.ROW else 3
        if field == 0:
            record[1] = rng.choice(node + [record[2]])
        elif field == 1:
            record[label_at : label_at + 4] = odd_label(rng).to_bytes(4, "big")
        elif field == 2:
            at = 6 if kind == reader.ROW else 2
            record[at] = rng.choice(node + [record[1]])
        else:
            record[7:11] = odd_list(rng, network, int.from_bytes(record[7:11], "big"), record[1]).to_bytes(4, "big")


def field_changed(rng, network, image):
    """One to three fields of a record set to values at or past their limits; each kind of record as often."""
    records = split(image)[:-1]
    kind = rng.choice(sorted({record[0] for record in records}))
    k = rng.choice([k for k, record in enumerate(records) if record[0] == kind])
    record = bytearray(records[k])
    for _ in range(rng.choice([1, 1, 2, 3])):
        change_field(rng, network, record)
    records[k] = bytes(record)
    return b"".join(records) + image[-1:]


def tail(rng, network, image):
    return image + rng.randbytes(rng.choice([1, 2, 200]))


def twice(rng, network, image):
    return image + image


def random_bytes(rng, network, image):
    return rng.randbytes(rng.randrange(300))


def random_body(rng, network, image):
    """A header, then bytes of which many are kinds and nodes."""
    return image[:3] + bytes(odd_byte(rng, network) for _ in range(rng.randrange(60)))


def random_records(rng, network, image):
    """A header, then records with random bodies, then perhaps an end."""
    out = image[:3]
    for _ in range(rng.randrange(6)):
        kind = rng.choice([2, 2, 2, 3, 4])
        out += bytes([kind]) + bytes(odd_byte(rng, network) for _ in range(reader.BODY[kind]))
    return out + rng.choice([b"", b"\0"])


DAMAGES = [
    bit_changed,
    byte_changed,
    cut,
    cut_at_record,
    cut_and_ended,
    inserted,
    removed,
    swapped,
    repeated,
    record_removed,
    kind_changed,
    field_changed,
    field_changed,
    tail,
    twice,
    random_bytes,
    random_body,
    random_records,
]


def damaged(rng, network, image):
    return rng.choice(DAMAGES)(rng, network, image)


# Events


def pair_in_range(rng, network):
    """Two different nodes, where there are two."""
    if network.n == 1:
        return 0, 0
    sender, receiver = rng.sample(range(network.n), 2)
    return sender, receiver


def any_pair(rng, network):
    """A sender and a receiver, most often of an arc or at least in range."""
    if rng.random() < 0.1:
        pair = [rng.randrange(network.n), rng.choice([network.n, 32, 255, rng.randrange(network.n)])]
        rng.shuffle(pair)
        return pair
    if network.cost and rng.random() < 0.6:
        return rng.choice(list(network.cost))
    return pair_in_range(rng, network)


def any_label(rng):
    return rng.choice([5, 5, 5, odd_label(rng)])


def any_list(rng, network, node):
    nodes = some_list(rng, network.n, node % 32)
    return rng.choice([nodes, nodes, nodes, odd_list(rng, network, nodes, node)])


def some_marks(rng, network):
    """Marks of present arcs, with a fault now and then."""
    words = [0] * 32
    for sender, receiver in network.cost:
        if rng.random() < 0.7:
            words[receiver] |= 1 << sender
    if rng.random() < 0.2:
        for _ in range(rng.choice([1, 1, 2])):
            sender, receiver = rng.choice([pair_in_range(rng, network), pair_in_range(rng, network), (rng.randrange(32), rng.randrange(32))])
            words[receiver] |= 1 << sender
    return words


def some_event(rng, network):
    kind = rng.choice([2, 2, 5, 6, 6, 6, 7, 7])
    if kind == 2:
        sender, receiver = any_pair(rng, network)
        return bytes([2, sender, receiver]) + rng.choice([0, 0, 1, 65535, rng.randrange(65536)]).to_bytes(2, "big")
    if kind == 5:
        return b"\5" + b"".join(word.to_bytes(4, "big") for word in some_marks(rng, network))
    if kind == 6:
        return b"\6"
    sender, receiver = any_pair(rng, network)
    return bytes([7, sender, receiver, rng.choice([rng.randrange(16), rng.randrange(16), rng.randrange(18)])])


def some_run(rng, network, image):
    """An image and events; marks are made for the network as the events before left it."""
    out = image
    _, _, _, now = reader.open(image)
    for _ in range(rng.choice([0, 1, 3, 8, 15])):
        event = some_event(rng, now)
        out += event
        reader.event(now, event[0], event[1:])
    fault = rng.randrange(8)
    if fault == 0:
        return out[: rng.randrange(len(image), len(out) + 1)]
    if fault == 1:
        at = rng.randrange(len(out))
        return out[:at] + bytes([odd_byte(rng, network)]) + out[at + 1 :]
    if fault == 2:
        return out + bytes([rng.randrange(256)])
    if fault == 3:
        return damaged(rng, network, image) + out[len(image) :]
    return out


def arc_words(network):
    """The marks of a round in which every arc is heard."""
    return [reader.arcs(network, receiver)[1] for receiver in range(32)]


def turned(words, *pairs):
    """The words with the bits of these pairs of sender and receiver turned over."""
    words = list(words)
    for sender, receiver in pairs:
        words[receiver] ^= reader.bit(sender)
    return words


# The cases


def fixed_cases(compare):
    """Every cut of two small images, every value of every byte of one; every number of every call."""
    field = bytes.fromhex("0104000200010001020003000402010000010201020001020201000102020300010203000004020302000100")
    compare.run(field + bytes.fromhex("06060606" + "0200010000" + "0201000000" + "060606060606"))
    small = reader.Network(3, 1)
    small.cost = {(1, 0): 7, (0, 2): 300}
    small.rows = {0: (7, 1, 3), 2: (307, 0, 7)}
    small.held = {(1, 0): (0, 2), (0, 2): (7, 3)}
    image = reader.image(small)
    for data in (field, image):
        for at in range(len(data) + 1):
            compare.open(data[:at])
            compare.run(data[:at])
    for at in range(len(image)):
        for value in range(256):
            compare.open(image[:at] + bytes([value]) + image[at + 1 :])
    compare.open(image)
    compare.outputs(small)
    marks = [0] * 32
    for words in (marks[1:], [0, 1] + marks[2:], [2] + marks[1:], [1] + marks[1:], [4] + marks[1:], [0, 0, 0, 1] + marks[4:], marks):
        compare.call("round", small, words)
    for value in (0, 24, 65535, 65536):
        compare.call("change", small, 0, 1, value)
        compare.call("change", small, 1, 1, value)
    for value in range(18):
        compare.call("grade", small, 2, 1, value)
    small.rows = {0: (7, 2, 5)}
    compare.open(reader.image(small))
    compare.outputs(small)
    small.rows[2] = 8, 0, 5
    compare.open(reader.image(small))
    compare.outputs(small)
    compare.run(image[:8] + image[3:])
    compare.run(image[:23] + b"\0" + image[24:])
    compare.run(image + b"\5\0\0\0\4" + bytes(124))
    for value in range(256):
        compare.open(bytes([value]))
        compare.open(bytes([1, value, 0, 0]))
        compare.open(bytes([1, 32, value, 0]))
        compare.run(image + bytes([value]))
        compare.run(image + bytes([value]) + bytes(128))


def equal_cases(compare):
    """Three offers of 6 or 7, from reports with one to three ones, in every order."""
    for labels in itertools.product((5, 6), repeat=3):
        for others in itertools.product((0, reader.bit(0), reader.bit(0) | reader.bit(5)), repeat=3):
            network = reader.Network(6, 0)
            for sender, label, nodes in zip((1, 2, 3), labels, others):
                network.cost[sender, 4] = 1
                network.held[sender, 4] = label, nodes | reader.bit(sender)
            compare.open(reader.image(network))
            compare.call("round", network, [0] * 32)


def edges(n, nodes):
    """Rows and reports of n nodes with every field at and past its limits, in every way together; nodes are the numbers that stand for a node."""
    most = 2**32 - 1
    labels = 0, 1, reader.MOST_LABEL, reader.MOST_LABEL + 1, most
    rows, reports = [], []
    for node in nodes:
        own, beyond = reader.bit(node % 32), reader.bit(n % 32)
        lists = sorted({own, own | reader.bit(n - 1), own | beyond, own | reader.bit(31), beyond, most, most ^ own, 0})
        rows += itertools.product([node], labels, nodes, lists)
        reports += itertools.product([node], nodes, labels, lists)
    return rows, reports


def placing_cases(compare):
    """Rows and reports at the edges as the last record of an image, with a round after it, below the record before, and as calls."""
    for n in (2, 3, 31, 32):
        origin = n // 2
        network = reader.Network(n, origin)
        network.cost = {(s, r): 5 for s, r in ((0, origin), (origin, n - 1), (n - 1, origin)) if s != r}
        image = reader.image(network)
        sender, receiver = max(network.cost)
        last = reader.report_record(sender, receiver, 0, reader.bit(sender))
        nodes = sorted({0, origin, n - 1, n})
        for make, cases in zip((reader.row_record, reader.report_record), edges(n, [*nodes, 255])):
            for case in cases:
                record = make(*case)
                compare.open(image[:-1] + record + image[-1:])
                compare.run(image[:-1] + record + image[-1:] + b"\6")
                compare.open(image[:-1] + last + record + image[-1:])
        for name, cases in zip(("place_row", "place_report"), edges(n, [*nodes, 256, 2**32 - 1])):
            _, opened = compare.open(image)
            for case in cases:
                compare.call(name, opened, *case)


def set_pairs(compare, network, pairs, cost, value):
    """Each of the pairs, in some order, by its cost or by a grade."""
    for pair in compare.rng.sample(pairs, len(pairs)):
        name, number = compare.rng.choice((("change", cost), ("grade", value)))
        compare.call(name, network, *pair, number)


def pair_cases(compare):
    """Fresh networks. In some of them every arc is added; those with a report are removed and added; every arc is removed."""
    for n in [*range(35), 256, 257, 2**31 + 1, 2**32 - 1]:
        for origin in {0, n - 1, n, 31, 32, 256} - {-1}:
            compare.fresh(n, origin)
    for n, rounds in ((2, 2), (5, 3), (32, 1)):
        network = compare.fresh(n, n // 2)
        pairs = [(sender, receiver) for sender in range(n) for receiver in range(n) if sender != receiver]
        set_pairs(compare, network, pairs, 1, 15)
        for _ in range(rounds):
            compare.call("round", network, arc_words(network))
        for pair in list(network.held):
            set_pairs(compare, network, [pair], 0, 0)
            set_pairs(compare, network, [pair], 256, 1)
        set_pairs(compare, network, pairs, 0, 0)


def stray_pairs(n):
    """Marks out of range among n nodes: of a node on itself, and of absent nodes."""
    pairs = {(0, 0), (n - 1, n - 1)}
    if n < 32:
        pairs |= {(n, 0), (n, n - 1), (31, 0), (31, n - 1), (0, n), (n - 1, n), (n, n), (0, 31), (31, 31)}
    return sorted(pairs)


def mark_cases(compare):
    """Each of the 1,024 bits, turned over in the arcs' words and alone; two faults: a mark out of range decides wherever it lies."""
    rng = compare.rng
    for n, density in ((1, 1), (2, 0.5), (3, 0.7), (8, 0.9), (17, 0.3), (31, 0.1), (32, 0.1)):
        image = reader.image(some_network(rng, n, density))
        _, network = compare.open(image)
        words, none = arc_words(network), [0] * 32
        for pair, others in itertools.product(itertools.product(range(32), repeat=2), (words, none)):
            compare.call("round", network, turned(others, pair))
            if pair in network.cost:
                _, network = compare.open(image)
        without = [(sender, receiver) for receiver in range(n) for sender in range(n) if sender != receiver and (sender, receiver) not in network.cost]
        some = sorted({*without[:3], *without[-3:], *rng.sample(without, min(len(without), 20))})
        for pair, stray, others in itertools.product(some, stray_pairs(n), (words, none)):
            compare.call("round", network, turned(others, pair, stray))
        for two in itertools.chain(itertools.combinations(some, 2), itertools.combinations(stray_pairs(n), 2)):
            compare.call("round", network, turned(words, *two))
        compare.call("round", network, words)


def other_n_cases(compare):
    """Words that no call made: networks whose n is set to another number, with calls and marks."""
    rng = compare.rng
    for n, density, numbers in ((3, 1, range(3)), (8, 0.8, range(8)), (32, 0.4, (0, 1, 2, 15, 16, 17, 30, 31, 33, 64, 2**31, 2**32 - 1))):
        network = some_network(rng, n, density)
        network.origin = 0
        network.rows.pop(0, None)
        for number in numbers:
            _, opened = compare.open(reader.image(network))
            compare.set_n(opened, number)
            words = arc_words(opened)
            compare.call("round", opened, words)
            for pair in stray_pairs(opened.n) if opened.n else [(0, 0), (31, 0), (0, 31)]:
                compare.call("round", opened, turned(words, pair))
            if opened.n:
                compare.calls(opened)


def full_cases(compare, count):
    """Networks of 32 nodes with every arc, row and report, damaged too, and inputs longer than any image."""
    rng = compare.rng
    for _ in range(count):
        network = some_network(rng, 32, 1)
        image = reader.image(network)
        assert len(image) == 16_217
        compare.open(image)
        compare.outputs(network)
        for _ in range(4):
            compare.open(damaged(rng, network, image))
            compare.open(field_changed(rng, network, image))
        _, now = compare.run(image + b"\6" * 2)
        compare.outputs(now)
        compare.run(some_run(rng, network, image))
        compare.open(image + rng.randbytes(60_000))
        compare.open(image[:-1] + image[-12:-1] * 500)
        compare.open(image[:3] + image[3:8] * 8_000)


def random_cases(compare, count):
    """Undamaged and damaged images and runs."""
    rng = compare.rng
    made = 0
    while made < count:
        network = random_network(rng)
        image = reader.image(network)
        number, opened = compare.open(image)
        assert number == 0 and reader.image(opened) == image
        compare.outputs(opened)
        if rng.random() < 0.3:
            compare.calls(opened)
        for _ in range(2):
            number, ran = compare.run(some_run(rng, network, image))
            if number == 0 and rng.random() < 0.3:
                compare.outputs(ran)
        for _ in range(10):
            data = damaged(rng, network, image)
            if rng.random() < 0.1:
                data = bit_changed(rng, network, data) if data else data
            made += data != image
            number, opened = compare.open(data)
            if number == 0 and rng.random() < 0.1:
                compare.outputs(opened)
            if rng.random() < 0.1:
                compare.run(data)


def main(arguments):
    library = arguments[0]
    seed = int(arguments[1]) if len(arguments) > 1 else 1
    count = int(arguments[2]) if len(arguments) > 2 else 30_000
    print(f"seed {seed}, {count} random damaged images", flush=True)
    compare = Comparison(Library(library), random.Random(seed))
    fixed_cases(compare)
    equal_cases(compare)
    placing_cases(compare)
    pair_cases(compare)
    mark_cases(compare)
    other_n_cases(compare)
    full_cases(compare, 1 + count // 10_000)
    random_cases(compare, count)
    print("call              cases" + "".join(f"{number:8}" for number in range(MOST_NUMBER + 1)))
    missing = []
    for name, seen in compare.seen.items():
        print(f"{name:16}{sum(seen):7}" + "".join(f"{times:8}" for times in seen))
        missing += [f"{name} {number}" for number in sorted(NUMBERS[name]) if seen[number] == 0]
    if missing:
        print("not seen: " + ", ".join(missing))
    print(f"damaged: {compare.cases} cases, {compare.differences} differences")
    return 1 if missing or compare.differences else 0


if __name__ == "__main__":
    sys.exit(main(sys.argv[1:]))
