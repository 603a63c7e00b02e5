#!/usr/bin/env python3
"""make_hostile.py NUMBER: writes a trace of random bytes as sheets, packets and shelf contents, and of commands that are out of
order or malformed. The same number gives the same trace. Nothing is said of the answers, only that each line has one."""
import random
import struct
import sys

SHEET = """new change topcut bottomcut
0 1 4 3

template kind field offset width
50 order security 0 8
50 order action 8 1
50 order side 9 1
50 order position 12 4
50 order price 16 8
50 order size 24 8
50 order oid 32 8
50 order firm 40 4
51 delete security 0 8
51 delete side 8 1
51 delete position 12 4
52 mass security 0 8
52 mass action 8 1
52 mass side 9 1
52 mass position 12 4
9 empty security 0 8
15 stat security 0 8
15 stat value 8 8
30 header security 0 8
30 header last 8 4
30 header bids 12 4
30 header offers 16 4
30 header stats 20 4
71 entries security 0 8
71 entries group 0 1
71 entries side 0 1
71 entries position 4 4
71 entries price 8 8
71 entries size 16 8
71 entries oid 24 8
71 entries firm 32 4
"""
TEMPLATES = [50, 51, 52, 9, 15, 30, 71, 99]
INSTRUMENTS = [5, 6, 7]


def word(data):
    return data.hex() if data else "-"


def noise(rng, most):
    return bytes(rng.randrange(256) for _ in range(rng.randrange(most + 1)))


def message(rng):
    """A message whose frame is right more often than not; its body is random, with a likely instrument, side and position."""
    body = bytearray(noise(rng, 60))
    body += bytes(max(0, 48 - len(body)))
    if rng.random() < 0.8:
        struct.pack_into("<Q", body, 0, rng.choice(INSTRUMENTS))
        body[8] = rng.choice([0, 1, 3, 4, 48, 49])
        body[9] = rng.choice([48, 49])
        struct.pack_into("<I", body, 12, rng.randrange(4))
    block = rng.choice([48, 48, 48, 48, 24, 8, rng.randrange(70)])
    length = 12 + len(body)
    if rng.random() < 0.05:
        length = rng.randrange(65536)
    encoding = 0xEB50 if rng.random() < 0.97 else rng.randrange(65536)
    schema = 2 if rng.random() < 0.97 else rng.randrange(65536)
    return struct.pack("<6H", length, encoding, block, rng.choice(TEMPLATES), schema, 0) + bytes(body)


def packet(rng, number, version):
    if rng.random() < 0.1:
        return noise(rng, 1500)
    head = struct.pack("<BBHIQ", rng.choice([55, 55, 55, 55, 1]), 0, version, number, 0)
    return head + b"".join(message(rng) for _ in range(rng.randrange(1, 5)))


def spoilt_sheet(rng):
    text = bytearray(SHEET.encode())
    for _ in range(rng.randrange(1, 4)):
        text[rng.randrange(len(text))] = rng.choice(b"0123456789 \nabcxyz\x00\xff")
    return bytes(text)


def command(rng, heard):
    pick = rng.randrange(16)
    if pick < 6:
        return "inc " + word(packet(rng, max(0, heard + rng.randrange(-40, 6)), 1))
    if pick < 9:
        return "snap " + word(packet(rng, rng.randrange(1, 6), rng.choice([1, 2, 65535])))
    return rng.choice([
        "join",
        "leave",
        "shelfsum",
        "shelf %d" % rng.choice([44800] * 8 + [0, 44799, 65536, 65537]),
        "poke %d %s" % (rng.randrange(66000), word(noise(rng, 80))),
        "ask %d" % rng.choice(INSTRUMENTS + [8]),
        "bids %d" % rng.choice(INSTRUMENTS + [8]),
        "offers %d" % rng.choice(INSTRUMENTS),
        "stats %d" % rng.choice(INSTRUMENTS),
        "check " + word(packet(rng, 1, 1)),
        "sheet " + word(spoilt_sheet(rng)),
        "inc 0",
        "snap xy",
        "ask",
        "open 1 55 1 %d %d" % (rng.choice(INSTRUMENTS), rng.choice(INSTRUMENTS)),
        rng.choice(["what", "join ", " leave", "ask -1", "poke 1"]),
        "# nothing",
        "",
    ])


def main():
    rng = random.Random(int(sys.argv[1]))
    print("inc 00")
    for turn in range(6):
        print("sheet " + word(SHEET.encode()))
        print(rng.choice(["store orders 3 24", "store panel", "store orders 1 8"]))
        print("open %d 55 1 5 6 7" % turn)
        if rng.random() < 0.8:
            print("join")
        heard = 0
        for _ in range(150):
            heard += rng.choice([0, 1, 1, 1, 2]) if rng.random() < 0.98 else rng.randrange(1 << 31)
            heard = min(heard, (1 << 32) - 10)
            print(command(rng, heard))


main()
