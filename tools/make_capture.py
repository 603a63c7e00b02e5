#!/usr/bin/env python3
"""make_capture.py: writes a large capture quickly, to measure how fast programs read it.

    python3 tools/make_capture.py [--seed S] [--megabytes M] [--out FILE]

    --seed S        the capture is decided by this number and by M alone (default 7)
    --megabytes M   at least so many million bytes (default 1000, in less than a minute); the numbers of the snapshot
                    loops, which have 16 bits, end it at some 2 GB
    --out FILE      where the capture goes (default /tmp/large.pcap); its layout sheet goes beside it, as /tmp/large.sheet

A stretch of packets is made as by make_week.py and then repeated, each time with the numbers, the loops and the times that
follow. The publisher stays honest: each stretch begins with packets that empty every book and set every statistic. The UDP
checksums are 0, which stands for none.
"""
import argparse
import io
import pathlib
import random
import struct

import make_sample as sample
from make_week import SECURITIES, Network, play

STRETCH = 40_000                           # packets of a stretch
EVERY = 8                                  # a packet of the snapshot loop after so many
LONGEST = 65_534                           # the highest number of a loop
FEEDS = {(sample.address(ip), port) for ip, port in (sample.FEED_A, sample.FEED_B)}
LOOP = (sample.address(sample.LOOP[0]), sample.LOOP[1])


def opening(publisher, turn, time):
    """One of the packets that begin a stretch: it empties two books and sets their statistics."""
    publisher.number += 1
    messages = []
    for book in publisher.books[2 * turn:2 * turn + 2]:
        messages.append(book.empty())
        for template in sample.STATS:
            book.stats[template] = publisher.rng.randrange(1_000_000)
            messages.append(book.stat_message(template))
    return sample.packet(publisher.number, sample.VERSION, time, messages)


def stretch(rng):
    """The records of a stretch as bytes, and the publisher that sent it."""
    file = io.BytesIO()
    publisher, network = sample.Publisher(rng, SECURITIES), Network(sample.Tape(file), rng)
    turns = ((turn, sample.START + turn * sample.GAP + rng.randrange(sample.GAP // 2), ()) for turn in range(STRETCH))

    def send(turn, time, going):
        return opening(publisher, turn, time) if 2 * turn < len(SECURITIES) else publisher.incremental(time)

    play(publisher, network, turns, EVERY, send, lambda: None)
    return bytearray(file.getvalue()[24:]), publisher


def payload_at(data, at):
    """Where a record's datagram has its UDP header, and to whom it goes; None where it is no whole datagram."""
    end = 12
    while data[at + end:at + end + 2] == b"\x81\x00":
        end += 4
    ip = at + end + 2
    if data[at + end:at + end + 2] != b"\x08\x00" or data[ip + 9] != 17 or (data[ip + 6] & 0x3F) or data[ip + 7]:
        return None
    udp = ip + (data[ip] & 15) * 4
    return udp, (bytes(data[ip + 16:ip + 20]), int.from_bytes(data[udp + 2:udp + 4], "big"))


def patches(data):
    """What changes from stretch to stretch, as places in its bytes: times, packet numbers, loops."""
    times, numbers, loops, at = [], [], [], 0
    while at < len(data):
        size = struct.unpack_from("<I", data, at + 8)[0]
        times.append((at, struct.unpack_from("<II", data, at)))
        found = payload_at(data, at + 16)
        if found:
            udp, to = found
            data[udp + 6:udp + 8] = b"\0\0"
            length, packet = int.from_bytes(data[udp + 4:udp + 6], "big") - 8, udp + 8
            if to in FEEDS and length >= 16 and any(data[packet + 4:packet + 8]):
                numbers.append(packet + 4)
            elif to == LOOP:
                loops.append(packet + 2)
                numbers += headers(data, packet, length)
        at += 16 + size
    return times, [(p, struct.unpack_from("<I", data, p)[0]) for p in numbers], [(p, struct.unpack_from("<H", data, p)[0]) for p in loops]


def headers(data, packet, length):
    """Where the snapshot headers of a packet say which number they are of."""
    at, found = packet + 16, []
    while at < packet + length:
        if struct.unpack_from("<H", data, at + 6)[0] == 30:
            found.append(at + 12 + 8)
        at += struct.unpack_from("<H", data, at)[0]
    return found


def write(file, size, rng):
    """Stretch after stretch, until the file is so large: how many packets were sent, and how many records there are."""
    data, publisher = stretch(rng)
    times, numbers, loops = patches(data)
    seconds = STRETCH * sample.GAP // 10 ** 9 + 1
    file.write(struct.pack("<IHHiIII", 0xA1B23C4D, 2, 4, 0, 0, 262144, 1))
    turn = 0
    while turn * len(data) < size and (turn + 1) * publisher.loop <= LONGEST:
        for at, (whole, part) in times:
            struct.pack_into("<I", data, at, whole + turn * seconds)
        for at, number in numbers:
            struct.pack_into("<I", data, at, number + turn * STRETCH)
        for at, loop in loops:
            struct.pack_into("<H", data, at, loop + turn * publisher.loop)
        file.write(data)
        turn += 1
    return turn * STRETCH, turn * len(times)


def main():
    parser = argparse.ArgumentParser(description=__doc__.split("\n")[0])
    parser.add_argument("--seed", type=int, default=7)
    parser.add_argument("--megabytes", type=int, default=1000)
    parser.add_argument("--out", type=pathlib.Path, default=pathlib.Path("/tmp/large.pcap"))
    asked = parser.parse_args()
    asked.out.with_suffix(".sheet").write_text(sample.sheet_text())
    with open(asked.out, "wb") as file:
        packets, records = write(file, asked.megabytes * 10 ** 6, random.Random(asked.seed))
        print(f"{asked.out}: {packets} packets, {records} records, {file.tell()} bytes")


if __name__ == "__main__":
    main()
