#!/usr/bin/env python3
"""inputs.py: makes the inputs of the bench by random numbers with fixed starts: calls, and hostile traces.

    python3 bench/inputs.py OUT [--small]

OUT gets a file of calls NAME.calls for each case, hostile-N.calls and hostile-N.trace, and cases.txt with a line for each file of
calls: name, mode, depth, messages, packets, the watched instruments. A file of calls is a row of records: a byte for the kind (0 incremental, 1 snapshot, 2 poke, 3 join,
4 leave), the length in two bytes, and the bytes that the call brings. --small makes short files, for counting instructions.
"""
import pathlib
import random
import struct
import sys

CHANNEL, VERSION, DEEPEST = 55, 1, 1024
NEW, CHANGE, TOPCUT, BOTTOMCUT = 0, 1, 4, 3
ORDER, DELETE, MASS, EMPTY, HEADER, ENTRIES, STAT, UNLISTED = 50, 51, 52, 9, 30, 71, 15, 53
FIRST_ID = 200_000_000_101
ODDITIES = ["shelfsum", "shelf 44799\nask 1\ninc 00\nshelf 44800", "shelf 50000", "poke 1 0", "inc zz", "ask", "", "# no", "bids x"]


def message(template, block, behind=b""):
    """A message: its head, its root block and what is behind it."""
    return struct.pack("<6H", 12 + len(block) + len(behind), 0xEB50, len(block), template, 2, 8) + block + behind


def packet(number, messages, version=VERSION, channel=CHANNEL):
    """A packet of these messages."""
    return struct.pack("<BBHIQ", channel, 0, version, number, 0) + b"".join(messages)


def order(security, action, side, position, entry):
    """A new or changed order; an entry is price, size, order number and firm."""
    price, size, oid, firm = entry
    return message(ORDER, struct.pack("<QQxBBxIqQQQII", security, 0, action, side, position, price, size, oid, 0, firm, 0))


def delete(security, side, position):
    return message(DELETE, struct.pack("<QHBxIQ8x", security, 0, side, position, 0))


def mass(security, action, side, position):
    return message(MASS, struct.pack("<QBBBxI4x", security, 0, action, side, position))


def empty(security):
    return message(EMPTY, struct.pack("<QQ", security, 0))


def stat(security, value):
    return message(STAT, struct.pack("<QIqI", security, 0, value, 0))


def header(security, last, bids, offers, stats=0):
    return message(HEADER, struct.pack("<QI4xIIHxx", security, last, bids, offers, stats))


def entries(security, rows):
    """Entries of a snapshot; a row is side, position, price, size, order number, firm."""
    group = struct.pack("<HB", 41, len(rows))
    for side, position, price, size, oid, firm in rows:
        group += struct.pack("<qQIIQQB", price, size, position, firm, 0, oid, side)
    return message(ENTRIES, struct.pack("<Q", security), group)


class Books:
    """An honest publisher's books, with edits spread over the positions."""

    def __init__(self, rng, count, orders):
        self.rng, self.orders, self.oid = rng, orders, 0
        self.ids = [FIRST_ID + 7 * index for index in range(count)]
        self.sides = {id: ([], []) for id in self.ids}

    def entry(self):
        """An order of its own."""
        self.oid += 1
        price = -2 ** 63 if self.rng.random() < 0.01 else self.rng.randrange(-10_000, 2_000_000)
        return (price, self.rng.randrange(1, 100_000), self.oid, self.rng.randrange(0, 500))

    def add(self, id, side):
        """A new order at any position."""
        book = self.sides[id][side]
        at, entry = self.rng.randrange(len(book) + 1), self.entry()
        book.insert(at, entry)
        return order(id, NEW, 48 + side, at + 1, entry)

    def edit(self):
        """One message that changes a book, which stays at about as many orders as wanted."""
        id, side = self.rng.choice(self.ids), self.rng.randrange(2)
        book, pick = self.sides[id][side], self.rng.random()
        if not book or len(book) < self.orders - 2 or (pick < 0.4 and len(book) < self.orders):
            return self.add(id, side)
        at = self.rng.randrange(len(book))
        if pick < 0.6:
            book[at] = self.entry()
            return order(id, CHANGE, 48 + side, at + 1, book[at])
        if pick > 0.995 and self.orders <= 20:
            return self.cut(id, side, min(at, 3))
        del book[at]
        return delete(id, 48 + side, at + 1)

    def cut(self, id, side, at):
        """A few orders go from the top."""
        del self.sides[id][side][:at + 1]
        return mass(id, TOPCUT, 48 + side, at + 1)

    def snapshot(self, id, last):
        """The messages of an instrument's snapshot, each with the bytes that it takes."""
        bids, offers = self.sides[id]
        rows = [(48 + side, at + 1, *entry) for side in (0, 1) for at, entry in enumerate(self.sides[id][side])]
        yield header(id, last, len(bids), len(offers))
        for start in range(0, len(rows), 30):
            yield entries(id, rows[start:start + 30])


def packed(messages, version=VERSION):
    """Packets of these messages, numbered from 1, each as full as it can be."""
    packets, now, size = [], [], 16
    for one in messages:
        if size + len(one) > 1400:
            packets.append(packet(len(packets) + 1, now, version))
            now, size = [], 16
        now.append(one)
        size += len(one)
    return packets + [packet(len(packets) + 1, now, version)] if now else packets


def traffic(rng, books, count, most=6):
    """Incremental packets: books that fill up, then edits, one to `most` messages a packet, one in ten of no interest."""
    fill = [books.add(id, side) for _ in range(books.orders - 1) for id in books.ids for side in (0, 1)]
    packets = packed(fill)
    for number in range(len(packets) + 1, len(packets) + count + 1):
        some = []
        for _ in range(rng.randrange(1, most + 1)):
            pick = rng.random()
            if pick < 0.05:
                some.append(message(UNLISTED, bytes(rng.randrange(0, 60))))
            elif pick < 0.10:
                some.append(stat(rng.choice(books.ids), rng.randrange(10 ** 6)))
            else:
                some.append(books.edit())
        packets.append(packet(number, some))
    return packets


def record(kind, bytes_=b""):
    return struct.pack("<BH", kind, len(bytes_)) + bytes_


def in_order(seed, instruments, orders, count):
    rng = random.Random(seed)
    books = Books(rng, instruments, orders)
    return books.ids, [record(0, one) for one in traffic(rng, books, count)]


def lossy(seed, count):
    """Packets that come twice, late or never, and a snapshot loop beside them."""
    rng = random.Random(seed)
    books = Books(rng, 8, 20)
    arrivals, loop = [], 0
    fill = [books.add(id, side) for _ in range(19) for id in books.ids for side in (0, 1)]
    numbered = packed(fill)
    for number in range(1, count + 1):
        if number > len(numbered):
            numbered.append(packet(number, [books.edit() for _ in range(rng.randrange(1, 7))]))
        for feed in range(2):
            if rng.random() > 0.08:
                late = rng.randrange(40) if rng.random() < 0.02 else rng.random() * 3
                arrivals.append((number + late, len(arrivals), record(0, numbered[number - 1])))
        if number % 300 == 0 and number > len(numbered) - 1:
            loop += 1
            messages = [one for id in books.ids for one in books.snapshot(id, number)]
            for at, one in enumerate(packed(messages, loop)):
                arrivals.append((number + 2 + at * 0.3, len(arrivals), record(1, one)))
    return books.ids, [record(3)] + [one for _, _, one in sorted(arrivals)]


def loops(seed, count):
    """Snapshot loops, every other of them adopted."""
    rng = random.Random(seed)
    books = Books(rng, 16, 50)
    calls, last = [record(3)], 1
    for _ in range(50):
        for id in books.ids:
            books.add(id, 0), books.add(id, 1)
    for loop in range(1, count + 1):
        last += loop % 2
        messages = [one for id in books.ids for one in books.snapshot(id, last)]
        calls += [record(1, one) for one in packed(messages, loop)]
    return books.ids, calls


def noise(rng, count):
    """Random bytes."""
    return bytes(rng.randrange(256) for _ in range(count))


def broken(rng, bytes_):
    """Bytes with some of them spoilt, seldom those of a packet's header."""
    spoilt = bytearray(bytes_)
    for _ in range(rng.randrange(1, 4)):
        pick = rng.random()
        if pick < 0.6 and len(spoilt) > 16:
            at = rng.randrange(0 if rng.random() < 0.02 else 8, len(spoilt))
            spoilt[at] = rng.choice([0, 1, 2, 12, 47, 48, 49, 50, 255, rng.randrange(256)])
        elif pick < 0.8:
            del spoilt[rng.randrange(len(spoilt) + 1):]
        else:
            spoilt += noise(rng, rng.randrange(40))
    return bytes(spoilt)


def hostile_calls(seed, count):
    """Calls with all that can be wrong in them: (kind, bytes)."""
    rng = random.Random(seed)
    books = Books(rng, 5, 12)
    numbered, loop, snapshots, at = traffic(rng, books, count), 0, [], 0
    for _ in range(count):
        pick = rng.random()
        if pick < 0.60:
            at += 1 + (rng.randrange(1, 3) if rng.random() < 0.02 else 0) + (rng.randrange(60) if rng.random() < 0.003 else 0)
            yield 0, numbered[min(at, len(numbered)) - 1]
        elif pick < 0.66:
            yield 0, numbered[max(1, min(at - rng.randrange(-8, 40), len(numbered))) - 1]
        elif pick < 0.70:
            yield 0, broken(rng, numbered[min(at, len(numbered) - 1)])
        elif pick < 0.72:
            yield 0, noise(rng, rng.choice([0, 7, 15, 16, 17, 40, 1400, 1401]))
        elif pick < 0.74:
            yield 2, struct.pack("<H", rng.randrange(at, at + 4) % 32 * 1400 + rng.randrange(200)) + noise(rng, rng.randrange(1, 30))
        elif pick < 0.75:
            yield rng.choice([3, 3, 3, 4]), b""
        else:
            if not snapshots:
                loop += 1
                last = max(0, min(at, len(numbered)) + rng.randrange(-36, 3))
                messages = [one for id in rng.sample(books.ids, 4) for one in books.snapshot(id, last)]
                snapshots = packed(messages, rng.choice([loop] * 12 + [65535, 0]))
            one = snapshots.pop(0) if rng.random() < 0.95 else snapshots[0]
            yield 1, broken(rng, one) if rng.random() < 0.05 else one


def trace_line(rng, kind, bytes_):
    """The command that makes a call."""
    if kind == 2:
        return f"poke {struct.unpack('<H', bytes_[:2])[0]} {bytes_[2:].hex() or '-'}"
    return ["inc " + (bytes_.hex() or "-"), "snap " + (bytes_.hex() or "-"), "", "join", "leave"][kind]


def hostile_trace(seed, sheet, count):
    """A hostile trace over orders and panels, with questions and broken commands in it."""
    rng = random.Random(seed)
    ids = [FIRST_ID + 7 * index for index in range(5)]
    lines = [f"sheet {sheet.hex()}"]
    for part in range(6):
        lines.append(rng.choice(["store orders 12 130", "store orders 14 1820", "store panel", "store orders 20 80"]))
        watched = rng.sample(ids, rng.randrange(1, 5))
        lines.append(f"open {part} {CHANNEL} {VERSION} {' '.join(map(str, watched))}")
        for kind, bytes_ in hostile_calls(seed * 100 + part, count):
            lines.append(trace_line(rng, kind, bytes_))
            if rng.random() < 0.3:
                lines.append(f"{rng.choice(['ask', 'bids', 'offers', 'stats'])} {rng.choice(ids)}")
            if rng.random() < 0.02:
                lines.append(rng.choice(ODDITIES))
            if rng.random() < 0.02:
                lines.append(f"sheet {broken(rng, sheet).hex() or '-'}")
                lines.append("check " + (bytes_.hex() or "-"))
                lines.append(f"sheet {sheet.hex()}")
    return "\n".join(lines) + "\n"


def measured(small):
    """The cases that are measured: name, mode, depth, instruments and calls."""
    count = 500 if small else 12_000
    for instruments in (1, 8, 64):
        yield f"watch-{instruments}", "feed", 32, *in_order(instruments, instruments, 20, count)
    for orders in (10, 100, 1000):
        yield f"orders-{orders}", "feed", min(DEEPEST, orders + 24), *in_order(100 + orders, 2, orders, count)
    yield "loss", "feed", 32, *lossy(200, count)
    yield "loop", "feed", 64, *loops(300, 4 if small else 60)
    yield "check", "walk", 32, *in_order(400, 8, 20, count)


def count_messages(calls):
    """How many messages the packets of calls have, and how many packets there are."""
    messages = packets = 0
    for call in calls:
        at, packets = 3 + 16, packets + (call[0] < 2)
        while call[0] < 2 and at + 12 <= len(call):
            at, messages = at + max(12, struct.unpack_from("<H", call, at)[0]), messages + 1
    return messages, packets


def main():
    out, small = pathlib.Path(sys.argv[1]), "--small" in sys.argv
    out.mkdir(parents=True, exist_ok=True)
    sheet = (pathlib.Path(__file__).parent.parent / "samples" / "day.sheet").read_bytes()
    cases = []
    for name, mode, depth, ids, calls in measured(small):
        (out / f"{name}.calls").write_bytes(b"".join(calls))
        cases.append(" ".join(map(str, [name, mode, depth, *count_messages(calls), *ids])))
    for seed in range(4):
        calls = [record(kind, bytes_[:65535]) for kind, bytes_ in hostile_calls(seed, 500 if small else 4000)]
        (out / f"hostile-{seed}.calls").write_bytes(b"".join(calls))
        ids = [FIRST_ID + 7 * index for index in range(5)]
        cases.append(" ".join(map(str, [f"hostile-{seed}", "digest", 14, *count_messages(calls), *ids])))
        (out / f"hostile-{seed}.trace").write_text(hostile_trace(seed, sheet, 100 if small else 600))
    (out / "cases.txt").write_text("\n".join(cases) + "\n")


main()
