#!/usr/bin/env python3
"""make_week.py: writes a capture of a week in small, its layout sheet, and the publisher's own books beside them.

    python3 tools/make_week.py [--seed S] [--packets N] [--out DIR] [--name NAME] [--no-books]

    --seed S      the week is decided by this number and by N alone (default 7)
    --packets N   how many incremental packets the publisher sends (default 2400, a capture below 2 MB;
                  for large captures there is make_capture.py)
    --out DIR     where NAME.pcap, NAME.sheet and NAME.books go (default samples)
    --name NAME   (default week)
    --no-books    does not write NAME.books, which grows with the packets

The traffic is that of make_sample.py, with six instruments and five days of seven hours. What the week has at fixed places
is in `EVENTS`: numbers that come behind more than 32 later ones, outages in which both feeds lose numbers, an outage of the
snapshot loop, and a book that is emptied and sent again.

NAME.books is a CSV table: what the publisher's book of an instrument says from a packet number on, with nothing lost, one
row for each number at which a figure changed. Its columns from bid_price on are those of the program `books`.
"""
import argparse
import pathlib
import random

import make_sample as sample
from make_sample import BID, NO_PRICE, OFFER

SECURITIES = [200000000101, 200000000102, 200000000115, 200000000140, 200000000203, 200000000377]
MONDAY = 1_699_880_400_000_000_000         # 13 November 2023, 13:00 UTC, in nanoseconds since the epoch
DAY, SESSION = 86_400 * 10 ** 9, 7 * 3_600 * 10 ** 9
PACKETS = 2400
COLUMNS = "number,instrument,bid_price,bid_size,bid_orders,bid_total,offer_price,offer_size,offer_orders,offer_total,spread"

# what happens at which part of the week, and for how many packets
EVENTS = [
    (0.11, "held", 2),                     # Monday: both feeds bring these numbers behind 36 later ones
    (0.29, "outage", 70),                  # Tuesday: neither feed brings these numbers
    (0.47, "silence", 150),                # Wednesday: the snapshot loop is lost
    (0.48, "outage", 3),                   # just then three numbers are lost as well
    (0.70, "emptied", 1),                  # Thursday: a book is emptied and sent again
    (0.86, "outage", 34),                  # Friday
]


class Network(sample.Network):
    """A network that loses the same numbers on both feeds, or brings them too late, only now and then."""
    DARK = 0.0008
    HELD = 0.0012
    BEHIND = 0.012


def side_figures(orders):
    """The four figures of a side: price and size of the first order, how many orders, and their sizes together."""
    if not orders:
        return None, ",,0,0"
    price, size = orders[0][0], orders[0][1]
    shown = None if price == NO_PRICE else price
    return shown, f"{'' if shown is None else shown},{size},{len(orders)},{sum(order[1] for order in orders)}"


def figures(book):
    """What a book says, as the columns of a row from bid_price on."""
    (bid, bids), (offer, offers) = side_figures(book.sides[BID]), side_figures(book.sides[OFFER])
    return f"{bids},{offers},{'' if bid is None or offer is None else offer - bid}"


class Books:
    """Writes a row for each number and instrument at which a figure changed."""

    def __init__(self, file, publisher):
        self.file, self.publisher, self.told = file, publisher, {}
        file.write(COLUMNS + "\n")
        self.note()

    def note(self):
        for book in self.publisher.books:
            now = figures(book)
            if self.told.get(book.security) != now:
                self.told[book.security] = now
                self.file.write(f"{self.publisher.number},{book.security},{now}\n")


def emptied(publisher, time):
    """A packet in which one book is emptied and sent again: EmptyBook, then its orders anew."""
    book = publisher.books[2]
    orders = {side: list(book.sides[side]) for side in (BID, OFFER)}
    publisher.number += 1
    messages = [book.empty()]
    for side in (BID, OFFER):
        for at, order in enumerate(orders[side][:7]):
            book.sides[side].append(order)
            messages.append(book.order_message(sample.NEW, side, at + 1, order))
    return sample.packet(publisher.number, sample.VERSION, time, messages)


def moment(turn, count):
    """When the publisher sends a packet: five sessions, one a day."""
    day, part = divmod(turn * 5, count)
    return MONDAY + day * DAY + part * SESSION // count


def happening(events, turn):
    """The events that go on at a packet."""
    return {name for start, name, length in events if start <= turn < start + length}


def play(publisher, network, turns, every, send, note):
    """Sends a packet at each turn, and one of the snapshot loop now and then; broken and other traffic stands among them."""
    rng, tape = network.rng, network.tape
    for turn, time, going in turns:
        payload = send(turn, time, going)
        note()
        if "held" in going:
            network.bring(sample.FEED_A, time + 36 * network.gap, payload, 0)
        elif "outage" not in going:
            network.incremental(time, payload)
        if turn % every == 0:
            shown = publisher.snapshot(time)
            if shown is not None and "silence" not in going:
                network.snapshot(time, shown)
        if rng.random() < 0.004:
            network.broken(time + 100_000, publisher)
        if rng.random() < 0.004:
            network.other(time + 120_000, payload)
        tape.until(time)
    tape.until(None)


def run(file, books_file, count, rng):
    """The week: the publisher that sent it, and how many records there are."""
    tape = sample.Tape(file)
    gap = 5 * SESSION // count
    publisher, network = sample.Publisher(rng, SECURITIES), Network(tape, rng, gap)
    note = Books(books_file, publisher).note if books_file else lambda: None
    events = [(int(part * count), name, length) for part, name, length in EVENTS]
    turns = ((turn, moment(turn, count) + rng.randrange(gap // 2), happening(events, turn)) for turn in range(count))

    def send(turn, time, going):
        return emptied(publisher, time) if "emptied" in going else publisher.incremental(time)

    play(publisher, network, turns, max(4, -(-count // 200_000)), send, note)
    return publisher, tape.records


def main():
    parser = argparse.ArgumentParser(description=__doc__.split("\n")[0])
    parser.add_argument("--seed", type=int, default=7)
    parser.add_argument("--packets", type=int, default=PACKETS)
    parser.add_argument("--out", type=pathlib.Path, default=pathlib.Path("samples"))
    parser.add_argument("--name", default="week")
    parser.add_argument("--no-books", action="store_true")
    asked = parser.parse_args()
    asked.out.mkdir(parents=True, exist_ok=True)
    (asked.out / f"{asked.name}.sheet").write_text(sample.sheet_text())
    books = None if asked.no_books else open(asked.out / f"{asked.name}.books", "w")
    with open(asked.out / f"{asked.name}.pcap", "wb") as file:
        publisher, records = run(file, books, asked.packets, random.Random(asked.seed))
    if books:
        books.close()
    print(f"{asked.out}/{asked.name}.pcap: {publisher.number} packets, {publisher.loop} loops, {records} records")


if __name__ == "__main__":
    main()
