"""Document 01 with change requests One, Two and Four in plain Python, for comparison with the proved code: networks, changes, grades, arcs, rounds,
images, runs, routes.

Written from the papers alone. Every call answers a number first: 0, or the number that the papers refuse it under.
"""

MOST_NODES = 32
MOST_COST = 65_535
MOST_LABEL = 2_031_585
GRADES = (0, 600, 480, 380, 300, 240, 190, 150, 120, 95, 75, 60, 48, 38, 30, 24)

# The body bytes of each kind.
BODY = {0: 0, 1: 2, 2: 4, 3: 10, 4: 10, 5: 128, 6: 0, 7: 3}
END, HEADER, ARC, ROW, REPORT, ROUND, FULL_ROUND, GRADE = range(8)


class Network:
    """A fresh network: no arcs, and no routes but the origin's."""

    def __init__(self, n, origin):
        self.n = n
        self.origin = origin
        self.cost = {}  # (sender, receiver): cost of 1 to 65,535; a pair without an arc is not there
        self.rows = {}  # relay: (label, predecessor, list); a relay without a route is not there
        self.held = {}  # (sender, receiver): (label, list); an empty report is not there


class Refused(Exception):
    def __init__(self, number, place):
        self.number = number
        self.place = place


def bit(node):
    return 1 << node


def listed(nodes, node):
    return nodes >> node & 1 == 1


# The network


def fresh(n, origin):
    """The number and the network."""
    if header_range(n, origin):
        return 3, Network(1, 0)
    return 0, Network(n, origin)


def row(network, node):
    """The node's row: label, predecessor and list, or None."""
    if node == network.origin:
        return 0, None, bit(node)
    return network.rows.get(node)


def arcs(network, receiver):
    """The number and the receiver's arcs as a word: bit s is 1 exactly when the arc from s is present."""
    if receiver >= network.n:
        return 3, 0
    return 0, sum(bit(sender) for sender in range(network.n) if (sender, receiver) in network.cost)


# Changing an arc


def change(network, sender, receiver, cost):
    if pair_range(network, sender, receiver) or cost > MOST_COST:
        return 3
    if cost == 0:
        network.cost.pop((sender, receiver), None)
        network.held.pop((sender, receiver), None)
    else:
        network.cost[sender, receiver] = cost
    return 0


def grade(network, sender, receiver, value):
    if pair_range(network, sender, receiver) or value > 15:
        return 3
    return change(network, sender, receiver, GRADES[value])


# A round


def offer(network, sender, receiver):
    """The sum that the held report offers, or None."""
    report = network.held.get((sender, receiver))
    if report is None:
        return None
    label, nodes = report
    total = label + network.cost[sender, receiver]
    if listed(nodes, receiver) or total > MOST_LABEL:
        return None
    return total


def new_row(network, receiver):
    """The row from held reports and present costs alone, or None: the least sum, then the fewest ones in its list, then the lowest sender."""
    offers = []
    for sender in range(network.n):
        total = offer(network, sender, receiver)
        if total is not None:
            nodes = network.held[sender, receiver][1]
            offers.append((total, bin(nodes).count("1"), sender, nodes))
    if not offers:
        return None
    total, _, sender, nodes = min(offers)
    return total, sender, nodes | bit(receiver)


def hear(network, arcs):
    """A round in which these arcs are heard."""
    before = {sender: row(network, sender) for sender in range(network.n)}
    for sender, receiver in arcs:
        if before[sender] is None:
            network.held.pop((sender, receiver), None)
        else:
            label, _, nodes = before[sender]
            network.held[sender, receiver] = label, nodes
    rows = {}
    for node in range(network.n):
        if node != network.origin:
            new = new_row(network, node)
            if new is not None:
                rows[node] = new
    network.rows = rows


def round(network, words):
    """A round with marks: word r has bit s for "r heard s"."""
    if len(words) != 32:
        return 1
    marked = [(sender, receiver) for receiver in range(32) for sender in range(32) if words[receiver] >> sender & 1]
    if any(pair_range(network, sender, receiver) for sender, receiver in marked):
        return 3
    if any(arc not in network.cost for arc in marked):
        return 7
    hear(network, marked)
    return 0


def full_round(network):
    """A round in which every arc is heard."""
    hear(network, list(network.cost))
    return 0


# What is refused as 3


def header_range(n, origin):
    return n == 0 or n > MOST_NODES or origin >= n


def pair_range(network, sender, receiver):
    return sender >= network.n or receiver >= network.n or sender == receiver


# A row or a report placed in the network: in an image order, 4, is tested after 3


def wrong_list(network, nodes, node):
    """A bit not below n, or the node's bit missing."""
    return nodes >> network.n != 0 or not listed(nodes, node)


def place_row(network, node, label, predecessor, nodes):
    if node >= network.n:
        return 3
    if node == network.origin:
        return 5
    if label == 0 or label > MOST_LABEL:
        return 10
    if predecessor >= network.n or predecessor == node:
        return 11
    if wrong_list(network, nodes, node):
        return 12
    network.rows[node] = label, predecessor, nodes
    return 0


def place_report(network, sender, receiver, label, nodes):
    if pair_range(network, sender, receiver):
        return 3
    if (sender, receiver) not in network.cost:
        return 5
    if label > MOST_LABEL:
        return 10
    if wrong_list(network, nodes, sender):
        return 12
    network.held[sender, receiver] = label, nodes
    return 0


# Records


def number(part):
    """Unsigned, most significant byte first."""
    return int.from_bytes(part, "big")


def record(data, place, allowed):
    """The kind and the body of the record at a place."""
    if place >= len(data):
        raise Refused(1, len(data))
    kind = data[place]
    if kind not in allowed:
        raise Refused(2, place)
    body = data[place + 1 : place + 1 + BODY[kind]]
    if len(body) < BODY[kind]:
        raise Refused(1, place)
    return kind, body


def row_record(node, label, predecessor, nodes):
    return bytes([ROW, node]) + label.to_bytes(4, "big") + bytes([predecessor]) + nodes.to_bytes(4, "big")


def report_record(sender, receiver, label, nodes):
    return bytes([REPORT, sender, receiver]) + label.to_bytes(4, "big") + nodes.to_bytes(4, "big")


def image(network):
    """The image: kind 1, arcs, rows, held reports, kind 0."""
    out = bytearray([HEADER, network.n, network.origin])
    for sender, receiver in sorted(network.cost):
        out += bytes([ARC, sender, receiver]) + network.cost[sender, receiver].to_bytes(2, "big")
    for node in sorted(network.rows):
        out += row_record(node, *network.rows[node])
    for sender, receiver in sorted(network.held):
        out += report_record(sender, receiver, *network.held[sender, receiver])
    out.append(END)
    return bytes(out)


def write(network, room):
    """Image writing into an output of this many bytes: the number and the image's bytes."""
    out = image(network)
    if room < len(out):
        return 6, b""
    return 0, out


def read_header(data):
    _, body = record(data, 0, {HEADER})
    n, origin = body
    if header_range(n, origin):
        raise Refused(3, 0)
    return Network(n, origin)


def read_slot(network, kind, body, place, last):
    """An arc, a row or a report of an image; its rank in image order. last is the rank of the record before."""
    if kind == ROW:
        rank = kind, body[0], 0
        wrong = body[0] >= network.n
    else:
        rank = kind, body[0], body[1]
        wrong = pair_range(network, body[0], body[1]) or (kind == ARC and number(body[2:4]) == 0)
    if wrong:
        raise Refused(3, place)
    if rank <= last:
        raise Refused(4, place)
    if kind == ARC:
        refused = change(network, body[0], body[1], number(body[2:4]))
    elif kind == ROW:
        refused = place_row(network, body[0], number(body[1:5]), body[5], number(body[6:10]))
    else:
        refused = place_report(network, body[0], body[1], number(body[2:6]), number(body[6:10]))
    if refused:
        raise Refused(refused, place)
    return rank


def read_image(data):
    """The network and the bytes used."""
    network = read_header(data)
    place = 1 + BODY[HEADER]
    last = HEADER, 0, 0
    while True:
        kind, body = record(data, place, {END, ARC, ROW, REPORT})
        if kind == END:
            return network, place + 1
        last = read_slot(network, kind, body, place, last)
        place += 1 + BODY[kind]


def open(data):
    """Number, place, bytes used and network."""
    try:
        network, used = read_image(data)
    except Refused as refusal:
        return refusal.number, refusal.place, 0, Network(1, 0)
    return 0, 0, used, network


# A run


def event(network, kind, body):
    """The event's number."""
    if kind == ARC:
        return change(network, body[0], body[1], number(body[2:4]))
    if kind == ROUND:
        return round(network, [number(body[4 * r : 4 * r + 4]) for r in range(32)])
    if kind == FULL_ROUND:
        return full_round(network)
    return grade(network, body[0], body[1], body[2])


def run(data):
    """Number, place, accepted rounds and network."""
    refused, place, used, network = open(data)
    if refused:
        return refused, place, 0, network
    rounds = 0
    place = used
    while place < len(data):
        try:
            kind, body = record(data, place, {ARC, ROUND, FULL_ROUND, GRADE})
        except Refused as refusal:
            return refusal.number, refusal.place, rounds, network
        refused = event(network, kind, body)
        if refused:
            return refused, place, rounds, network
        if kind in (ROUND, FULL_ROUND):
            rounds += 1
        place += 1 + BODY[kind]
    return 0, 0, rounds, network


# A route


def route(network, node, room):
    """The number and the nodes from the origin to the node, into an output of this many bytes."""
    if node >= network.n:
        return 3, b""
    if row(network, node) is None:
        return 8, b""
    met = [node]
    while met[-1] != network.origin:
        predecessor = row(network, met[-1])[1]
        if row(network, predecessor) is None or predecessor in met:
            return 9, b""
        met.append(predecessor)
    if room < len(met):
        return 6, b""
    return 0, bytes(reversed(met))
