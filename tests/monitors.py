"""The messages of `rip` beside real monitoring software. tests/monitors calls it, with the program's path and a folder for what is written:

    monitors.py tshark PROGRAM FOLDER    # a capture file to each network, and every field that tshark shows of it
    monitors.py bird PROGRAM FOLDER      # the routes that BIRD learns; this and the next in network, mount and process namespaces of their own
    monitors.py frr PROGRAM FOLDER       # the routes that FRR's ripd learns, and those that its zebra hands to the kernel
    monitors.py sender                   # the other end of the link: sends the messages that it is given on standard input

What is expected is counted on the networks made here, arc by arc, and never read from what the program writes. The last line of the first three is
'PART: N checks, M failed'.
"""

import os
import re
import shutil
import signal
import socket
import struct
import subprocess
import sys
import time
import typing

FULL = 4 + 25 * 20
# The link's ends: the monitor, and the host that sends.
MONITOR, SENDER, GROUP, PORT = "192.0.2.1", "192.0.2.2", "224.0.0.9", 520
# Routes that this test sends itself: once one is seen, all that was sent before it has been worked on.
MARKS = "198.51.100."
# Seconds until a route must have been seen, and until all must be done.
PATIENCE = 20
LONGEST = 300


# Networks


class Case:
    """A run, its base, and the hops of each node after it (None where there is no route)."""

    def __init__(self, name, base, run, hops):
        self.name = name
        self.base = base
        self.run = run
        self.metrics = [16 if h is None or h + 1 > 15 else h + 1 for h in hops]

    def address(self, node):
        first = int.from_bytes(socket.inet_aton(self.base), "big")
        return socket.inet_ntoa((first + node + 1).to_bytes(4, "big"))

    def parts(self):
        """The nodes of each message."""
        nodes = range(len(self.metrics))
        return [nodes[i : i + 25] for i in range(0, len(nodes), 25)]

    def message(self, nodes):
        """The bytes that one message must be."""
        out = bytes([2, 2, 0, 0])
        for node in nodes:
            out += bytes([0, 2, 0, 0]) + socket.inet_aton(self.address(node)) + bytes([255, 255, 255, 255, 0, 0, 0, 0, 0, 0, 0, self.metrics[node]])
        return out


def arcs(pairs, cost=1):
    """Arcs in both directions."""
    return {arc: cost for a, b in pairs for arc in ((a, b), (b, a))}


def line(nodes):
    return list(zip(nodes, nodes[1:]))


def image(n, origin, costs):
    return bytes([1, n, origin]) + b"".join(bytes([2, *arc]) + costs[arc].to_bytes(2, "big") for arc in sorted(costs)) + bytes([0])


def count(n, origin, costs, most=31):
    """Hops of each node, breadth first, over at most so many arcs. Right where every cost is the same, or only one way leads to a node."""
    hops = {origin: 0}
    for h in range(1, most + 1):
        for sender, receiver in costs:
            if hops.get(sender) == h - 1 and receiver not in hops:
                hops[receiver] = h
    return [hops.get(node) for node in range(n)]


def settled(name, base, n, origin, costs):
    """With more full rounds than rows of 32 nodes need to settle."""
    return Case(name, base, image(n, origin, costs) + bytes([6]) * 64, count(n, origin, costs))


def tree(n):
    """Node i under node (i - 1) / 2."""
    return [((i - 1) // 2, i) for i in range(1, n)]


def cut():
    """Twelve nodes in line: all routes, then the link of 5 and 6 cut, then put back; the same addresses."""
    whole = arcs(line(range(12)))
    rest = {arc: 1 for arc in whole if set(arc) != {5, 6}}
    first = image(12, 0, whole) + bytes([6]) * 64
    second = first + bytes([2, 5, 6, 0, 0, 2, 6, 5, 0, 0]) + bytes([6]) * 64
    third = second + bytes([2, 5, 6, 0, 1, 2, 6, 5, 0, 1]) + bytes([6]) * 64
    base = "10.44.12.0"
    return [
        Case("12 in line, before the cut", base, first, count(12, 0, whole)),
        Case("12 in line, 5 and 6 cut", base, second, count(12, 0, rest)),
        Case("12 in line, put back", base, third, count(12, 0, whole)),
    ]


def sample(name, base):
    """A sample, with the hops of its stored table."""
    with open("samples/%s.run" % name, "rb") as file:
        run = file.read()
    with open("tests/routes/%s.txt" % name) as file:
        rows = [text.split() for text in file.read().splitlines()[1:-1]]
    return Case("samples/%s.run" % name, base, run, [None if row[3] == "-" else int(row[3]) for row in rows])


def cases():
    """Networks whose addresses a host may have."""
    mixed = [7 * i % 32 for i in range(32)]
    away = {arc: 65_535 - 2_000 * i for i, arc in enumerate(line(mixed))}
    graded = bytes([1, 9, 4, 0]) + b"".join(bytes([7, *arc, 1 + sum(arc) % 15]) for arc in arcs(line(range(9)))) + bytes([6]) * 20
    ten = arcs(line(range(10)))
    return [
        settled("1 node", "10.32.7.0", 1, 0, {}),
        settled("2 nodes, origin 1", "10.32.8.0", 2, 1, arcs([(0, 1)])),
        settled("2 nodes, no arc", "10.32.9.0", 2, 0, {}),
        settled("2 nodes, an arc to the origin alone", "10.32.10.0", 2, 0, {(1, 0): 3}),
        settled("15 in line: 14 hops", "172.16.200.0", 15, 0, arcs(line(range(15)))),
        settled("16 in line: 15 hops", "172.16.201.0", 16, 0, arcs(line(range(16)))),
        settled("17 in line: 16 hops", "172.16.202.0", 17, 0, arcs(line(range(17)))),
        settled("17 in line, origin 16", "172.31.255.0", 17, 16, arcs(line(range(17)), 9)),
        settled("32 in line, origin 13", "100.64.3.0", 32, 13, arcs(line(range(32)), 65_535)),
        settled("32 one way, mixed, each cost another", "192.168.1.0", 32, mixed[0], away),
        settled("25 around node 24", "10.255.255.0", 25, 24, arcs([(24, i) for i in range(24)], 600)),
        settled("26 around node 3, origin 25", "11.0.0.0", 26, 25, arcs([(3, i) for i in range(26) if i != 3])),
        settled("32 around node 31", "223.255.254.0", 32, 31, arcs([(31, i) for i in range(31)])),
        settled("26 in a tree", "1.2.3.0", 26, 0, arcs(tree(26))),
        settled("32 in a tree, origin 30", "203.0.113.0", 32, 30, arcs(tree(32), 24)),
        settled("32 in a tree, two parts", "191.255.0.0", 32, 1, {arc: 1 for arc in arcs(tree(32)) if set(arc) != {0, 1} and 9 not in arc}),
        settled("20 in a ring, origin 5", "128.0.0.0", 20, 5, arcs(line([*range(20), 0]))),
        Case("26 nodes, no round yet", "10.1.0.0", image(26, 7, arcs(tree(26))), [0 if i == 7 else None for i in range(26)]),
        Case("10 in line, 4 rounds", "10.1.1.0", image(10, 0, ten) + bytes([6]) * 4, count(10, 0, ten, 4)),
        Case("9 in line by grades, origin 4", "10.1.2.0", graded, [abs(i - 4) for i in range(9)]),
        *cut(),
        sample("field", "10.7.7.0"),
        sample("wells", "10.7.8.0"),
    ]


def further_cases():
    """Addresses that no host has, which only tshark takes."""
    costs = arcs(line(range(26)))
    return [settled("26 in line at " + base, base, 26, 12, costs) for base in ("0.0.0.0", "127.0.0.0", "224.0.0.0", "255.255.255.0", "128.128.128.0")]


# Checks


class Checks:
    def __init__(self, part):
        self.part = part
        self.checks = 0
        self.failed = 0

    def check(self, name, wrong):
        """One check, with a line; wrong is a text of what is at fault, or nothing."""
        self.checks += 1
        self.failed += bool(wrong)
        print("%s, %s: %s" % (self.part, name, "failed: " + wrong if wrong else "as expected"), flush=True)

    def end(self):
        print("%s: %d checks, %d failed" % (self.part, self.checks, self.failed), flush=True)
        return 1 if self.failed else 0


def version(*command):
    """The line with a version of what a program says of itself."""
    done = subprocess.run(command, stdout=subprocess.PIPE, stderr=subprocess.STDOUT, text=True, timeout=20)
    return next((text for text in done.stdout.splitlines() if re.search(r"[0-9]\.[0-9]", text)), "no version")


def call(*command, given):
    """What the program writes, and what is at fault with how it ended."""
    try:
        done = subprocess.run(command, input=given, capture_output=True, timeout=20)
    except (OSError, subprocess.TimeoutExpired) as problem:
        return b"", "the program: %s" % problem
    if done.returncode != 0 or done.stderr:
        return done.stdout, "the program ended with status %d and errors %r" % (done.returncode, done.stderr[:200])
    return done.stdout, ""


def write(program, case):
    return call(program, case.base, given=case.run)


def messages(data):
    """Cut into messages: 25 entries to each but the last."""
    return [data[i : i + FULL] for i in range(0, len(data), FULL)]


def differing(shown, expected):
    """The first difference of two lists or of two dictionaries, as a text, or nothing."""
    if isinstance(shown, list):
        shown, expected = dict(enumerate(shown)), dict(enumerate(expected))
    for key in [*expected, *shown]:
        if shown.get(key) != expected.get(key):
            return "%s is %s, not %s" % (key, shown.get(key), expected.get(key))
    return ""


# tshark

ENTRY = ("rip.family", "rip.route_tag", "rip.ip", "rip.netmask", "rip.next_hop", "rip.metric")
# What a message without fault doesn't have.
NEVER = ("_ws.malformed", "_ws.expert.message", "rip.unknown_address_family", "rip.auth.type", "rip.routing_domain")
SHOWN = ("ip.src", "ip.dst", "udp.srcport", "udp.dstport", "udp.payload", "rip.command", "rip.version") + ENTRY + NEVER


def sums(data):
    """The checksum of an IPv4 header."""
    total = sum(struct.unpack(">10H", data))
    while total >> 16:
        total = (total & 0xFFFF) + (total >> 16)
    return total ^ 0xFFFF


def packet(payload):
    """A raw IPv4 packet."""
    def header(checksum):
        addresses = socket.inet_aton(SENDER) + socket.inet_aton(GROUP)
        return struct.pack(">BBHHHBBH", 0x45, 0xC0, 28 + len(payload), 0, 0, 1, socket.IPPROTO_UDP, checksum) + addresses

    return header(sums(header(0))) + struct.pack(">HHHH", PORT, PORT, 8 + len(payload), 0) + payload


def capture(path, payloads):
    """A capture file of raw packets, link type 101."""
    with open(path, "wb") as file:
        file.write(struct.pack("<IHHiIII", 0xA1B2C3D4, 2, 4, 0, 0, 65_535, 101))
        for second, payload in enumerate(payloads):
            data = packet(payload)
            file.write(struct.pack("<IIII", second, 0, len(data), len(data)) + data)


def dissect(path):
    """To each packet, the fields that tshark shows: a list of texts for each."""
    command = ["tshark", "-n", "-r", path, "-T", "fields", "-E", "separator=|", "-E", "aggregator=,", "-E", "occurrence=a"]
    for field in SHOWN:
        command += ["-e", field]
    done = subprocess.run(command, capture_output=True, text=True, timeout=60)
    if done.returncode != 0:
        raise RuntimeError("tshark ended with status %d: %s" % (done.returncode, done.stderr[-300:]))
    packets = []
    for text in done.stdout.splitlines():
        packets.append({field: value.split(",") if value else [] for field, value in zip(SHOWN, text.split("|"))})
    return packets


def expected_fields(case, nodes):
    fields = {
        "ip.src": [SENDER],
        "ip.dst": [GROUP],
        "udp.srcport": [str(PORT)],
        "udp.dstport": [str(PORT)],
        "udp.payload": [case.message(nodes).hex()],
        "rip.command": ["2"],
        "rip.version": ["2"],
        "rip.family": ["2"] * len(nodes),
        "rip.route_tag": ["0"] * len(nodes),
        "rip.ip": [case.address(node) for node in nodes],
        "rip.netmask": ["255.255.255.255"] * len(nodes),
        "rip.next_hop": ["0.0.0.0"] * len(nodes),
        "rip.metric": [str(case.metrics[node]) for node in nodes],
    }
    fields.update({field: [] for field in NEVER})
    return fields


def wrong_fields(case, packets):
    for number, (shown, nodes) in enumerate(zip(packets, case.parts())):
        expected = expected_fields(case, nodes)
        for field in SHOWN:
            wrong = differing(shown[field], expected[field])
            if wrong:
                return "message %d, %s: %s" % (number, field, wrong)
    return ""


def wrong_counts(case, data, packets):
    """How many messages there are, and how many entries to each."""
    sizes = [4 + 20 * len(nodes) for nodes in case.parts()]
    if len(data) != sum(sizes):
        return "%d bytes, not %d" % (len(data), sum(sizes))
    entries = [len(shown["rip.metric"]) for shown in packets]
    return differing(entries, [len(nodes) for nodes in case.parts()])


def read_back(program, case, data):
    """What is at fault with what the program reads in its own messages."""
    printed, wrong = call(program, "-r", case.base, str(len(case.metrics)), given=data)
    lines = ["%d %d" % pair for pair in enumerate(case.metrics)]
    return wrong or differing(printed.decode(errors="replace").splitlines(), lines)


def tshark(program, folder):
    tally = Checks("tshark")
    print("tshark: " + version("tshark", "--version"), flush=True)
    for number, case in enumerate(cases() + further_cases()):
        path = os.path.join(folder, "%02d.pcap" % number)
        data, wrong = write(program, case)
        capture(path, messages(data))
        try:
            packets = dissect(path)
        except (RuntimeError, subprocess.TimeoutExpired) as problem:
            packets, wrong = [], wrong or str(problem)
        tally.check(case.name + ", messages and entries", wrong or wrong_counts(case, data, packets))
        tally.check(case.name + ", fields", wrong or wrong_fields(case, packets) or ("" if packets else "no packet"))
        tally.check(case.name + ", read back", wrong or read_back(program, case, data))
    return tally.end()


# The link


def ip(*words):
    subprocess.run(["ip", *words], check=True)


class Link:
    """The monitor's end of a link, in this namespace, and a sender at the other end, in another."""

    def __init__(self):
        ip("link", "set", "lo", "up")
        ip("link", "add", "monitor", "type", "veth", "peer", "name", "relay")
        command = ["unshare", "--net", sys.executable, "-B", os.path.abspath(__file__), "sender"]
        self.sender = subprocess.Popen(command, stdin=subprocess.PIPE, stdout=subprocess.PIPE, text=True)
        self.answer("ready")
        ip("link", "set", "relay", "netns", str(self.sender.pid))
        ip("address", "add", MONITOR + "/24", "dev", "monitor")
        ip("link", "set", "monitor", "up")
        self.ask("up")
        self.marks = 0

    def answer(self, expected):
        text = self.sender.stdout.readline().strip()
        if text != expected:
            raise RuntimeError("the sender says %r, not %r" % (text, expected))

    def ask(self, *words):
        print(*words, file=self.sender.stdin, flush=True)
        self.answer("done")

    def send(self, payload, to=GROUP):
        self.ask("send", to, payload.hex())

    def mark(self):
        """Sends a route of this test's own; its address."""
        self.marks += 1
        address = MARKS + str(self.marks)
        entry = bytes([0, 2, 0, 0]) + socket.inet_aton(address) + bytes([255, 255, 255, 255, 0, 0, 0, 0, 0, 0, 0, 1])
        self.send(bytes([2, 2, 0, 0]) + entry)
        return address


def sender():
    """Says ready; then the link's end is put into this namespace, and lines come: up, or send ADDRESS BYTES."""
    print("ready", flush=True)
    sending = socket.socket(socket.AF_INET, socket.SOCK_DGRAM)
    for text in sys.stdin:
        words = text.split()
        if words[0] == "up":
            ip("address", "add", SENDER + "/24", "dev", "relay")
            ip("link", "set", "relay", "up")
            sending.setsockopt(socket.IPPROTO_IP, socket.IP_MULTICAST_IF, socket.inet_aton(SENDER))
            sending.bind((SENDER, PORT))
        else:
            sending.sendto(bytes.fromhex(words[2]) if len(words) > 2 else b"", (words[1], PORT))
        print("done", flush=True)
    return 0


# BIRD and FRR


class Route(typing.NamedTuple):
    """A route learnt."""

    metric: int
    via: str
    tag: int


class Daemons:
    """A monitor's programs under some setting, a folder for what they say, and what they do with a metric."""

    def __init__(self, setting, folder, added, infinity):
        self.setting = setting
        self.folder = folder
        self.added = added
        self.infinity = infinity
        self.running = []

    def start(self, *command):
        path = "%s, %s.txt" % (os.path.basename(command[0]), self.setting)
        with open(os.path.join(self.folder, path), "w") as log:
            self.running.append(subprocess.Popen(command, stdin=subprocess.DEVNULL, stdout=log, stderr=subprocess.STDOUT))

    def stop(self):
        for process in reversed(self.running):
            process.terminate()
            try:
                process.wait(10)
            except subprocess.TimeoutExpired:
                process.kill()
                process.wait()

    def alive(self):
        return all(process.poll() is None for process in self.running)

    def save(self, name, text):
        path = os.path.join(self.folder, name)
        with open(path, "w") as file:
            file.write(text)
        return path

    def shown(self, metric):
        """The metric shown for one that was sent, or None where there is no route."""
        total = metric + self.added
        return total if metric < 16 and total < self.infinity else None


def ask(*command):
    """What a command prints, or nothing where it fails: daemons that are just starting can't be asked."""
    try:
        return subprocess.run(command, capture_output=True, text=True, timeout=10).stdout
    except subprocess.TimeoutExpired:
        return ""


class Bird(Daemons):
    """BIRD, with its infinity."""

    CONFIGURATION = """\
router id 192.0.2.1;
log "%s" all;
protocol device {
}
protocol rip relays {
    ipv4 { import all; export none; };
%s    interface "monitor" { version 2; passive; };
}
"""

    def __init__(self, folder, infinity):
        super().__init__("infinity %d" % infinity if infinity != 16 else "as it comes", folder, 1, infinity)
        self.log = os.path.join(folder, "bird, %s.log" % self.setting)
        self.control = "/run/bird.ctl"
        option = "    infinity %d;\n" % infinity if infinity != 16 else ""
        path = self.save("bird, %s.conf" % self.setting, self.CONFIGURATION % (self.log, option))
        self.start("bird", "-f", "-c", path, "-s", self.control)

    def routes(self):
        """All routes in BIRD's table."""
        routes = {}
        text = ask("birdc", "-s", self.control, "show", "route", "all")
        for part in re.split(r"^(?=[0-9])", text, flags=re.M):
            head = re.match(r"(\S+)\s+(\w+) \[relays .*\(120/(\d+)\)", part)
            if head:
                via = re.search(r"\bvia (\S+) on monitor", part)
                tag = re.search(r"RIP.tag: (\S+)", part)
                metric = re.search(r"RIP.metric: (\d+)", part)
                same = metric and metric[1] == head[3]
                routes[head[1]] = Route(int(head[3]) if same else -1, via[1] if via else head[2], int(tag[1], 16) if tag else -1)
        return routes

    def faults(self):
        """Complaints about what came from the sender."""
        with open(self.log) as file:
            found = [text.strip() for text in file if re.search(r"<(RMT|WARN|ERR|BUG|AUTH|FATAL)>", text)]
        return found[0] if found else ""


class Frr(Daemons):
    """FRR's zebra and ripd; with an offset of 0 the metric is the one that was sent."""

    CONFIGURATION = """\
%srouter rip
 version 2
 network monitor
 passive-interface monitor
%s"""

    def __init__(self, folder, added):
        super().__init__("offset 0" if added == 0 else "as it comes", folder, added, 16)
        before = "access-list relays permit any\n" if added == 0 else ""
        after = " offset-list relays in 0\n" if added == 0 else ""
        self.configure("zebra.conf", "")
        self.configure("ripd.conf", self.CONFIGURATION % (before, after))
        self.start("/usr/lib/frr/zebra", "-f", "/run/frr/zebra.conf", "--log", "stdout")
        until(lambda: os.path.exists("/run/frr/zserv.api"))
        self.start("/usr/lib/frr/ripd", "-f", "/run/frr/ripd.conf", "--log", "stdout")

    def configure(self, name, text):
        self.save("%s, %s" % (self.setting, name), text)
        path = os.path.join("/run/frr", name)
        with open(path, "w") as file:
            file.write(text)
        shutil.chown(path, "frr", "frr")

    def stop(self):
        super().stop()
        for name in os.listdir("/run/frr"):
            os.remove(os.path.join("/run/frr", name))

    def routes(self):
        """What ripd has learnt, without what waits to be forgotten."""
        routes = {}
        for text in ask("vtysh", "-d", "ripd", "-c", "show ip rip").splitlines():
            words = re.match(r"R\(\w\)\s+(\S+)\s+(\S+)\s+(\d+)\s+(\S+)\s+(\d+)", text)
            if words and words[3] != "16":
                routes[words[1]] = Route(int(words[3]), words[2], int(words[5]))
        return routes

    def kernel(self):
        """The routes that the kernel of this namespace has of RIP (protocol 189), each with the gateway."""
        routes = {}
        for text in ask("ip", "-4", "route", "show", "proto", "189").splitlines():
            words = text.split()
            via = words[words.index("via") + 1] if "via" in words else text
            routes[words[0] if "/" in words[0] else words[0] + "/32"] = via
        return routes

    def faults(self):
        """ripd's counts of bad packets and bad routes."""
        text = ask("vtysh", "-d", "ripd", "-c", "show ip rip status")
        counts = re.search(r"^\s+%s\s+(\d+)\s+(\d+)" % re.escape(SENDER), text, re.M)
        if not counts:
            return "the sender is not among the sources"
        return "" if counts.groups() == ("0", "0") else "bad packets %s, bad routes %s" % counts.groups()


def until(test, seconds=PATIENCE):
    """Tries until the test holds; whether it did."""
    limit = time.monotonic() + seconds
    while not test():
        if time.monotonic() > limit:
            return False
        time.sleep(0.05)
    return True


def begun(daemons, link):
    """Sends marks until one is seen."""
    def seen():
        link.mark()
        time.sleep(0.3)
        return any(prefix.startswith(MARKS) for prefix in daemons.routes())

    return until(seen)


def under(routes, base):
    """The routes whose first three bytes are those of a base."""
    return {prefix: route for prefix, route in routes.items() if prefix.startswith(base[:-1])}


def learn(tally, daemons, link, program):
    """The networks one after the other, and at the end the monitor's whole table."""
    if not begun(daemons, link):
        tally.check(daemons.setting, "it learns no route" if daemons.alive() else "it doesn't run")
        return
    known = {}
    for number, case in enumerate(cases()):
        name = "%s, %s" % (daemons.setting, case.name)
        data, wrong = write(program, case)
        for message in messages(data):
            link.send(message, GROUP if number % 2 == 0 else MONITOR)
        mark = link.mark() + "/32"
        if not until(lambda: mark in daemons.routes()):
            tally.check(name, "no answer")
            return
        shown = {case.address(node) + "/32": daemons.shown(metric) for node, metric in enumerate(case.metrics)}
        expected = {prefix: Route(metric, SENDER, 0) for prefix, metric in shown.items() if metric is not None}
        wrong = wrong or differing(under(daemons.routes(), case.base), expected)
        tally.check(name + ", routes", wrong)
        if hasattr(daemons, "kernel"):
            vias = dict.fromkeys(expected, SENDER)
            until(lambda: mark in daemons.kernel() and (wrong or under(daemons.kernel(), case.base) == vias), 2)
            tally.check(name + ", the kernel's routes", differing(under(daemons.kernel(), case.base), vias))
        known = {prefix: route for prefix, route in known.items() if prefix not in shown}
        known.update(expected)
    others = {prefix: route for prefix, route in daemons.routes().items() if not prefix.startswith(MARKS)}
    tally.check(daemons.setting + ", the whole table", differing(others, known))
    tally.check(daemons.setting + ", no complaint", daemons.faults() if daemons.alive() else "it doesn't run any more")


def monitor(part, program, folder):
    tally = Checks(part)
    if part == "bird":
        print("bird: " + version("bird", "--version"), flush=True)
        settings = [lambda: Bird(folder, 17), lambda: Bird(folder, 16)]
    else:
        print("frr: " + version("/usr/lib/frr/ripd", "--version"), flush=True)
        settings = [lambda: Frr(folder, 1), lambda: Frr(folder, 0)]
    # Where the daemons keep files there are memory disks instead, seen in this namespace alone.
    for path, mode in (("/run", "755"), ("/var/tmp", "1777")):
        subprocess.run(["mount", "-t", "tmpfs", "-o", "mode=" + mode, "none", path], check=True)
    if part == "frr":
        os.mkdir("/run/frr")
        shutil.chown("/run/frr", "frr", "frr")
    link = Link()
    for start in settings:
        daemons = start()
        try:
            learn(tally, daemons, link, program)
        finally:
            daemons.stop()
    return tally.end()


def too_long(*_):
    raise TimeoutError("not done within %d seconds" % LONGEST)


def main():
    part = sys.argv[1]
    if part == "sender":
        return sender()
    signal.signal(signal.SIGALRM, too_long)
    signal.alarm(LONGEST)
    program, folder = os.path.abspath(sys.argv[2]), os.path.abspath(sys.argv[3])
    return tshark(program, folder) if part == "tshark" else monitor(part, program, folder)


if __name__ == "__main__":
    sys.exit(main())
