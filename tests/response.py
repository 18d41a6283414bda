"""Change request Three in plain Python, for comparison with the proved code: RIP version 2 Response messages written and read, and what `rip` prints.

Written from the papers alone. Calls answer a number first: 0, or the number that the papers refuse it under.
"""

import re
import struct

import reader

HEADER = struct.Struct(">BBH")  # command, version, 0
ENTRY = struct.Struct(">HHIIII")  # address family, tag, address, mask, next hop, metric
RESPONSE, VERSION = 2, 2
FAMILY = 2
MASK = 0xFFFFFFFF
MOST_ENTRIES = 25
NO_ROUTE = 16

MOST_INPUT = 65_536
MOST_ARGUMENT = 4_096
USAGE = b"usage: rip BASE <run >messages, or rip -r BASE N <messages\n"


# Writing


def metric(network, node):
    """Hops plus 1, or 16 where that exceeds 15 or there is no route."""
    row = reader.row(network, node)
    if row is None:
        return NO_ROUTE
    hops = bin(row[2]).count("1") - 1
    return NO_ROUTE if hops + 1 > 15 else hops + 1


def metrics(network):
    return [metric(network, node) for node in range(network.n)]


def entry(base, node, value):
    return ENTRY.pack(FAMILY, 0, base + node + 1, MASK, 0, value)


def header():
    return HEADER.pack(RESPONSE, VERSION, 0)


def messages(base, values):
    """The messages for these metrics, one after another."""
    entries = [entry(base, node, value) for node, value in enumerate(values)]
    parts = [entries[at : at + MOST_ENTRIES] for at in range(0, len(entries), MOST_ENTRIES)]
    return b"".join(header() + b"".join(part) for part in parts)


def write(base, values, room):
    """Writing into an output of this many bytes: the number and the messages. Without values n is 0."""
    if base % 256 != 0:
        return 13, b""
    if not values:
        return 3, b""
    out = messages(base, values)
    if room < len(out):
        return 6, b""
    return 0, out


# Reading


class Wrong(Exception):
    """A wrong length or field."""


def taken(form, data, at):
    """The fields at a place, and the place after them."""
    if at + form.size > len(data):
        raise Wrong
    return form.unpack_from(data, at), at + form.size


def fields(data, base, n):
    """The metrics of nodes 0 to n-1 in order."""
    found, at = [], 0
    for first in range(0, n, MOST_ENTRIES):
        start, at = taken(HEADER, data, at)
        if start != (RESPONSE, VERSION, 0):
            raise Wrong
        for node in range(first, min(first + MOST_ENTRIES, n)):
            (family, tag, address, mask, hop, value), at = taken(ENTRY, data, at)
            if (family, tag, address, mask, hop) != (FAMILY, 0, base + node + 1, MASK, 0) or not 1 <= value <= 16:
                raise Wrong
            found.append(value)
    if at != len(data):
        raise Wrong
    return found


def read(data, base, n):
    """The number and the metrics."""
    if base % 256 != 0:
        return 13, []
    if n == 0 or n > reader.MOST_NODES:
        return 3, []
    try:
        return 0, fields(data, base, n)
    except Wrong:
        return 14, []


# The program


def dotted(base):
    """The argument that stands for a base."""
    return ".".join(map(str, base.to_bytes(4, "big"))).encode()


def base_of(word):
    """Four numbers of 0 to 255 without zeros in front, with dots between; None where the word is something else."""
    parts = word.split(b".")
    if len(parts) != 4 or not all(re.fullmatch(rb"0|[1-9][0-9]{0,2}", part) and int(part) <= 255 for part in parts):
        return None
    return int.from_bytes(bytes(map(int, parts)), "big")


def count_of(word):
    """A number without zeros in front; None where the word is something else."""
    if len(word) > MOST_ARGUMENT or not re.fullmatch(rb"0|[1-9][0-9]*", word):
        return None
    return int(word)


def written(base, data):
    """What `rip BASE` writes to standard output and to standard error."""
    if base % 256 != 0:
        return b"", b"refused 13\n"
    if len(data) > MOST_INPUT:
        return b"", b"too long\n"
    number, place, _, network = reader.run(data)
    if number != 0:
        return b"", b"stopped %d at %d\n" % (number, place)
    return messages(base, metrics(network)), b""


def listed(base, n, data):
    """What `rip -r BASE N` writes to standard output and to standard error."""
    number, values = read(data, base, n)
    if number != 0:
        return b"", b"refused %d\n" % number
    return b"".join(b"%d %d\n" % line for line in enumerate(values)), b""


def printed(words, data):
    """What `rip` with these arguments writes to standard output and to standard error."""
    if len(words) == 1:
        base = base_of(words[0])
        if base is not None:
            return written(base, data)
    if len(words) == 3 and words[0] == b"-r":
        base, n = base_of(words[1]), count_of(words[2])
        if base is not None and n is not None:
            return listed(base, n, data)
    return b"", USAGE
