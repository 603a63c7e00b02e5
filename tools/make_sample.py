#!/usr/bin/env python3
"""make_sample.py: writes a sample capture of one Binary UMDF channel, and the layout sheet that it is read by.

    python3 tools/make_sample.py [--seed S] [--packets N] [--out DIR] [--books FILE]

    --seed S      the run is decided by this number alone (default 22)
    --packets N   how many incremental packets the publisher sends (default 600: about 1,500 records and 400 kB;
                  250,000 give a capture of 200 MB in about half a minute)
    --out DIR     where day.pcap and day.sheet go (default samples)
    --books FILE  also writes the publisher's own books at the end, with nothing lost: one line an order
                  (security side position price size oid firm), then one line a number (security template value)

It needs Python 3 and nothing else.

What the capture holds. A publisher keeps honest books of four instruments, up to 20 orders a side, where the position
decides, and their statistics. It sends each change in a numbered incremental packet of one to four messages, some of
templates that the sheet does not list. Each packet goes out on feed A and on feed B. On each way packets are lost,
doubled and brought out of order, mostly by a few numbers, at times by more than 32; now and then both feeds lose the
same numbers. A snapshot loop runs beside them: in each loop, for each instrument, a header that says which packet it is
as of and how many pieces come, then the orders by position, bids and offers, then the statistics. Among these stand
broken datagrams (too short, empty, a wrong encoding, a torn message, another channel, another version, number 0) and other
traffic (another port, TCP, ARP, a fragmented datagram, a record that the capture cut, a tagged frame, IP options).

Addresses: feed A 239.55.1.1:10055, feed B 239.55.1.2:10056, snapshot loop 239.55.2.1:20055; channel 55, version 1.
The capture is classic pcap, little-endian, in nanoseconds, Ethernet; all checksums are right.
"""
import argparse
import heapq
import pathlib
import random
import struct

CHANNEL, VERSION, SCHEMA, SCHEMA_VERSION, ENCODING = 55, 1, 2, 8, 0xEB50
FEED_A, FEED_B, LOOP = ("239.55.1.1", 10055), ("239.55.1.2", 10056), ("239.55.2.1", 20055)
SOURCE, SOURCE_PORT = "10.55.0.1", 30000
START = 1_700_000_000_000_000_000          # the first packet's time, in nanoseconds since the epoch
GAP = 1_000_000                            # nanoseconds between packets, on average
DEPTH = 20                                 # orders a side at most
NEW, CHANGE, TOPCUT, BOTTOMCUT = 0, 1, 4, 3
BID, OFFER = 0x30, 0x31                    # ASCII 0 and 1
NO_PRICE = -2 ** 63
SECURITIES = [200000000101, 200000000102, 200000000115, 200000000140]

# kind, template and fields with offset and width; the fields of entries but the first two stand in each entry
LAYOUTS = [
    ("order", 50, "security 0 8, action 17 1, side 18 1, position 20 4, price 24 8, size 32 8, oid 40 8, firm 56 4"),
    ("delete", 51, "security 0 8, side 10 1, position 12 4"),
    ("mass", 52, "security 0 8, action 9 1, side 10 1, position 12 4"),
    ("empty", 9, "security 0 8"),
    ("header", 30, "security 0 8, last 8 4, bids 16 4, offers 20 4, stats 24 2"),
    ("entries", 71, "security 0 8, group 0 1, price 0 8, size 8 8, position 16 4, firm 20 4, oid 32 8, side 40 1"),
    ("stat", 15, "security 0 8, value 12 8"),
    ("stat", 16, "security 0 8, value 12 8"),
    ("stat", 17, "security 0 8, value 12 8"),
    ("stat", 24, "security 0 8, value 12 8"),
    ("stat", 27, "security 0 8, value 12 8"),
    ("stat", 28, "security 0 8, value 16 8"),
    ("stat", 56, "security 0 8, value 12 4"),
]
UNLISTED = [2, 3, 10, 53, 55]


def fields_of(text):
    """The fields of a layout: name, offset, width."""
    words = (part.split() for part in text.split(", "))
    return [(name, int(offset), int(width)) for name, offset, width in words]


FIELDS = {template: fields_of(text) for _, template, text in LAYOUTS}
STATS = [template for kind, template, _ in LAYOUTS if kind == "stat"]
ENTRY = [f for f in FIELDS[71] if f[0] not in ("security", "group")]


def sheet_text():
    """The layout sheet, one line a field."""
    lines = ["new change topcut bottomcut", f"{NEW} {CHANGE} {TOPCUT} {BOTTOMCUT}", "", "template kind field offset width"]
    for kind, template, _ in LAYOUTS:
        lines += [f"{template} {kind} {name} {offset} {width}" for name, offset, width in FIELDS[template]]
    return "\n".join(lines) + "\n"


def block(fields, values, least=0):
    """A block or an entry with these values at their places; `least` is its length at least."""
    out = bytearray(max(least, max(offset + width for _, offset, width in fields)))
    for name, offset, width in fields:
        out[offset:offset + width] = (values[name] % 256 ** width).to_bytes(width, "little")
    return bytes(out)


def message(template, root, behind=b"", encoding=ENCODING):
    """A message: header, root block, and what stands behind it."""
    return struct.pack("<6H", 12 + len(root) + len(behind), encoding, len(root), template, SCHEMA, SCHEMA_VERSION) + root + behind


def packet(number, version, time, messages, channel=CHANNEL):
    """A packet: header of 16 bytes, then messages."""
    return struct.pack("<BBHIQ", channel, 0, version, number, time) + b"".join(messages)


class Book:
    """What the publisher keeps of one instrument: orders by position on each side, and its statistics."""

    def __init__(self, security, rng):
        self.security, self.rng = security, rng
        self.sides = {BID: [], OFFER: []}
        self.stats = {}
        self.middle = rng.randrange(100_000, 900_000)

    def order_message(self, action, side, position, order):
        values = dict(zip(("price", "size", "oid", "firm"), order), security=self.security, action=action, side=side, position=position)
        return message(50, block(FIELDS[50], values, 60 + (4 if self.rng.random() < 0.02 else 0)))

    def new(self, side, oid):
        """A new order behind those that are as good or better; one without a price goes to the front."""
        orders, rng = self.sides[side], self.rng
        away = rng.randrange(1, 60) * 100
        price = NO_PRICE if rng.random() < 0.01 else self.middle - away if side == BID else self.middle + away
        better = (lambda p: p >= price) if side == BID else (lambda p: p <= price)
        at = 0 if price == NO_PRICE else sum(1 for p, _, _, _ in orders if p == NO_PRICE or better(p))
        order = (price, rng.randrange(1, 200) * 100, oid, rng.choice((0, 3, 8, 72, 85, 308)))
        orders.insert(at, order)
        return self.order_message(NEW, side, at + 1, order)

    def change(self, side):
        """Another size at some position."""
        orders = self.sides[side]
        at = self.rng.randrange(len(orders))
        price, _, oid, firm = orders[at]
        orders[at] = (price, self.rng.randrange(1, 200) * 100, oid, firm)
        return self.order_message(CHANGE, side, at + 1, orders[at])

    def delete(self, side):
        orders = self.sides[side]
        at = min(self.rng.randrange(len(orders)), self.rng.randrange(len(orders)))
        del orders[at]
        return message(51, block(FIELDS[51], dict(security=self.security, side=side, position=at + 1)))

    def mass(self, side):
        """A cut from the top down to a position, or from a position to the bottom."""
        orders = self.sides[side]
        few = self.rng.randrange(1, min(4, len(orders)) + 1)
        if self.rng.random() < 0.5:
            action, position = TOPCUT, few
            del orders[:few]
        else:
            action, position = BOTTOMCUT, len(orders) - few + 1
            del orders[position - 1:]
        return message(52, block(FIELDS[52], dict(security=self.security, action=action, side=side, position=position)))

    def empty(self):
        self.sides = {BID: [], OFFER: []}
        return message(9, block(FIELDS[9], dict(security=self.security)))

    def stat_message(self, template):
        return message(template, block(FIELDS[template], dict(security=self.security, value=self.stats[template])))

    def stat(self):
        template = self.rng.choice(STATS)
        self.stats[template] = self.rng.randrange(1_000_000) - (0 if template == 56 else 1000)
        return self.stat_message(template)

    def step(self, oid):
        """One change, with its message."""
        rng = self.rng
        side = rng.choice((BID, OFFER))
        count, draw = len(self.sides[side]), rng.random()
        if draw < 0.10:
            return self.stat()
        if draw < 0.103:
            return self.empty()
        if count == 0 or (count < DEPTH and draw < 0.50):
            return self.new(side, oid)
        if draw < 0.72:
            return self.change(side)
        return self.mass(side) if draw > 0.985 else self.delete(side)

    def image(self, last):
        """The messages of a snapshot: header, entries by position, statistics."""
        counts = dict(bids=len(self.sides[BID]), offers=len(self.sides[OFFER]), stats=len(self.stats))
        out = [message(30, block(FIELDS[30], dict(counts, security=self.security, last=last)))]
        for side in (BID, OFFER):
            entries = [block(ENTRY, dict(price=p, size=s, oid=o, firm=f, side=side, position=n + 1)) for n, (p, s, o, f) in enumerate(self.sides[side])]
            for start in range(0, len(entries), 12):
                some = entries[start:start + 12]
                group = struct.pack("<HB", len(some[0]), len(some)) + b"".join(some)
                out.append(message(71, block(FIELDS[71][:1], dict(security=self.security)), group))
        return out + [self.stat_message(template) for template in sorted(self.stats)]


class Publisher:
    """Numbers the packets of the channel and runs the snapshot loop."""

    def __init__(self, rng, securities=SECURITIES):
        self.rng = rng
        self.books = [Book(security, rng) for security in securities]
        self.number, self.oid = 0, 1_000_000
        self.loop, self.within, self.turn, self.waiting = 0, 0, len(securities), []

    def incremental(self, time):
        """The next incremental packet."""
        self.number += 1
        messages = []
        for _ in range(self.rng.choice((1, 1, 2, 2, 3, 4))):
            if self.rng.random() < 0.04:
                messages.append(message(self.rng.choice(UNLISTED), self.rng.randbytes(self.rng.randrange(8, 41))))
            else:
                self.oid += 1
                messages.append(self.rng.choice(self.books).step(self.oid))
        return packet(self.number, VERSION, time, messages)

    def snapshot(self, time):
        """The next packet of the snapshot loop, of as many messages as fit; none once the loop numbers are used up."""
        if not self.waiting:
            if self.turn == len(self.books):
                self.loop, self.within, self.turn = self.loop + 1, 0, 0
            self.waiting = self.books[self.turn].image(self.number)
            self.turn += 1
        if self.loop > 65534:
            return None
        messages, room = [], 1400 - 16
        while self.waiting and len(self.waiting[0]) <= room:
            room -= len(self.waiting[0])
            messages.append(self.waiting.pop(0))
        self.within += 1
        return packet(self.within, self.loop, time, messages)


def ones(data):
    """The Internet checksum of these bytes: the sum of 16-bit numbers, where a carry is added again."""
    if len(data) % 2:
        data += b"\0"
    rest = int.from_bytes(data, "big") % 65535
    return 65535 - rest if any(data) else 65535


def address(text):
    return bytes(int(part) for part in text.split("."))


class Wire:
    """Makes frames: Ethernet, IPv4 and UDP, with their checksums."""

    def __init__(self):
        self.serial = 0

    def ip(self, to, protocol, part, options=b"", flags=0x4000, serial=None):
        self.serial = (self.serial + 1) % 65536
        head = struct.pack(">BBHHHBBH", 0x45 + len(options) // 4, 0, 20 + len(options) + len(part), self.serial if serial is None else serial, flags, 16, protocol, 0)
        head += address(SOURCE) + address(to) + options
        return head[:10] + struct.pack(">H", ones(head)) + head[12:] + part

    def udp(self, to, port, payload):
        head = struct.pack(">HHHH", SOURCE_PORT, port, 8 + len(payload), 0)
        total = ones(address(SOURCE) + address(to) + struct.pack(">BBH", 0, 17, 8 + len(payload)) + head + payload)
        return head[:6] + struct.pack(">H", total or 65535) + payload

    def frame(self, to, packet_bytes, tags=b"", kind=0x0800):
        a = address(to)
        low = bytes((a[1] & 0x7F, a[2], a[3]))
        out = b"\x01\x00\x5e" + low + b"\x02\x00\x00\x00\x00\x01" + tags + struct.pack(">H", kind) + packet_bytes
        return out + b"\0" * (60 - len(out))

    def datagram(self, feed, payload, **more):
        return self.frame(feed[0], self.ip(feed[0], 17, self.udp(*feed, payload)), **more)


class Tape:
    """Writes records by time; what is brought at a later time waits."""

    def __init__(self, file):
        self.file, self.heap, self.order, self.records = file, [], 0, 0
        file.write(struct.pack("<IHHiIII", 0xA1B23C4D, 2, 4, 0, 0, 262144, 1))

    def put(self, time, frame, original=None):
        self.order += 1
        heapq.heappush(self.heap, (time, self.order, frame, len(frame) if original is None else original))

    def until(self, time):
        """Writes all that came before a time; all there is, where no time is given."""
        while self.heap and (time is None or self.heap[0][0] < time):
            at, _, frame, original = heapq.heappop(self.heap)
            self.file.write(struct.pack("<IIII", at // 10 ** 9, at % 10 ** 9, len(frame), original) + frame)
            self.records += 1


class Network:
    """Brings packets to the tape: loses, doubles and delays some."""

    DARK = 0.006                           # how often both feeds begin to lose some numbers
    HELD = 0.006                           # how often both feeds bring a number later than 32 others
    BEHIND = 0.04                          # how often both feeds bring a number later than a few others, or later still

    def __init__(self, tape, rng, gap=GAP):
        self.tape, self.rng, self.gap, self.wire = tape, rng, gap, Wire()
        self.dark = 0

    def bring(self, feed, time, payload, lost, **more):
        if self.rng.random() < lost:
            return
        draw = self.rng.random()
        late = self.rng.randrange(33, 60) if draw < 0.004 else self.rng.randrange(1, 6) if draw < 0.04 else 0
        arrival = time + late * self.gap + self.rng.randrange(20_000, 90_000)
        self.tape.put(arrival, self.wire.datagram(feed, payload, **more))
        if self.rng.random() < 0.01:
            self.tape.put(arrival + self.rng.randrange(1, 3) * self.gap, self.wire.datagram(feed, payload))

    def incremental(self, time, payload):
        """Both feeds; now and then neither brings some numbers, or both bring one late."""
        if self.dark == 0 and self.rng.random() < self.DARK:
            self.dark = self.rng.choice((1, 1, 2, 3, 5, 45))
        if self.dark > 0:
            self.dark -= 1
            return
        draw = self.rng.random()
        held = self.rng.randrange(33, 40) if draw < self.HELD else self.rng.randrange(1, 7) if draw < self.BEHIND else 0
        self.bring(FEED_A, time + held * self.gap, payload, 0.03)
        self.bring(FEED_B, time + held * self.gap + 15_000, payload, 0.05)

    def snapshot(self, time, payload):
        self.bring(LOOP, time + 40_000, payload, 0.02)

    def broken(self, time, publisher):
        """A datagram on a feed that no reader takes."""
        number = publisher.number
        sound = message(9, block(FIELDS[9], dict(security=SECURITIES[0])))
        payload = self.rng.choice((
            packet(number, VERSION, time, [])[:15],
            packet(number, VERSION, time, []),
            packet(number, VERSION, time, [message(9, sound[12:], encoding=0x5BE0)]),
            packet(number, VERSION, time, [sound, sound[:7]]),
            packet(number, VERSION, time, [sound[:16]]),
            packet(number, VERSION, time, [sound], channel=56),
            packet(number, VERSION + 1, time, [sound]),
            packet(0, VERSION, time, [sound]),
        ))
        self.tape.put(time, self.wire.datagram(self.rng.choice((FEED_A, FEED_B)), payload))

    def other(self, time, payload):
        """Traffic that is no datagram of a feed, or one in unusual dress."""
        wire, (to, port) = self.wire, FEED_A
        kind = self.rng.randrange(7)
        if kind == 0:
            self.tape.put(time, wire.datagram((to, 9999), b"hello"))
        elif kind == 1:
            self.tape.put(time, wire.frame("10.55.0.9", wire.ip("10.55.0.9", 6, self.tcp("10.55.0.9"))))
        elif kind == 2:
            arp = struct.pack(">HHBBH", 1, 0x0800, 6, 4, 1) + b"\x02\0\0\0\0\x01" + address(SOURCE) + bytes(6) + address("10.55.0.9")
            self.tape.put(time, wire.frame("10.55.0.9", arp, kind=0x0806))
        elif kind == 3:
            whole, serial = wire.udp(to, port, payload + bytes(64)), self.rng.randrange(65536)
            self.tape.put(time, wire.frame(to, wire.ip(to, 17, whole[:64], flags=0x2000, serial=serial)))
            self.tape.put(time + 9, wire.frame(to, wire.ip(to, 17, whole[64:], flags=8, serial=serial)))
        elif kind == 4:
            frame = wire.datagram(FEED_A, payload)
            self.tape.put(time, frame[:len(frame) - 5], original=len(frame))
        elif kind == 5:
            self.tape.put(time, wire.datagram(FEED_A, payload, tags=struct.pack(">HH", 0x8100, 55)))
        else:
            options = b"\x94\x04\x00\x00"
            self.tape.put(time, wire.frame(to, wire.ip(to, 17, wire.udp(to, port, payload), options=options)))

    def tcp(self, to):
        head = struct.pack(">HHIIBBHHH", self.rng.randrange(40000, 60000), 443, self.rng.randrange(2 ** 32), 0, 0x50, 2, 8192, 0, 0)
        total = ones(address(SOURCE) + address(to) + struct.pack(">BBH", 0, 6, len(head)) + head)
        return head[:16] + struct.pack(">H", total) + head[18:]


def run(file, count, rng):
    """One day: the publisher that sent it, and how many records there are."""
    tape = Tape(file)
    publisher, network = Publisher(rng), Network(tape, rng)
    every = max(2, -(-count // 200_000))
    time = START
    for turn in range(count):
        time += rng.randrange(GAP // 2, GAP * 3 // 2)
        payload = publisher.incremental(time)
        network.incremental(time, payload)
        if turn % every == 0:
            shown = publisher.snapshot(time)
            if shown is not None:
                network.snapshot(time, shown)
        if rng.random() < 0.03:
            network.broken(time + 100_000, publisher)
        if rng.random() < 0.04:
            network.other(time + 120_000, payload)
        tape.until(time)
    tape.until(None)
    return publisher, tape.records


def books_text(publisher):
    """The publisher's own books: a line an order, then a line a number."""
    lines = []
    for book in publisher.books:
        for side in (BID, OFFER):
            lines += [f"{book.security} {chr(side)} {n + 1} {p} {s} {o} {f}" for n, (p, s, o, f) in enumerate(book.sides[side])]
    for book in publisher.books:
        lines += [f"{book.security} {template} {book.stats[template]}" for template in sorted(book.stats)]
    return "\n".join(lines) + "\n"


def main():
    parser = argparse.ArgumentParser(description=__doc__.split("\n")[0])
    parser.add_argument("--seed", type=int, default=22)
    parser.add_argument("--packets", type=int, default=600)
    parser.add_argument("--out", type=pathlib.Path, default=pathlib.Path("samples"))
    parser.add_argument("--books", type=pathlib.Path)
    asked = parser.parse_args()
    asked.out.mkdir(parents=True, exist_ok=True)
    (asked.out / "day.sheet").write_text(sheet_text())
    with open(asked.out / "day.pcap", "wb") as file:
        publisher, records = run(file, asked.packets, random.Random(asked.seed))
    if asked.books:
        asked.books.write_text(books_text(publisher))
    print(f"{asked.out}/day.pcap: {publisher.number} packets, {publisher.loop} loops, {records} records")


if __name__ == "__main__":
    main()
