#!/usr/bin/env python3
"""compare_books.py: compares the rows of the program `books` with the publisher's own books.

    python3 tools/compare_books.py ROWS BOOKS [--expect N]

ROWS is what `books` wrote, BOOKS the table that make_week.py wrote beside the capture. Every row that is not stale is
compared, figure by figure, with the publisher's book of its instrument at the packet number that the row shows as `as_of`;
a stale row must show no number and no figure. The last line says how many rows were compared. The exit status is 1 where a
row differs, where no row was compared, or where there are not N of them. It needs Python 3 and nothing else.
"""
import argparse
import bisect
import csv
import sys

ROW = "time,heard,instrument,mark,as_of,bid_price,bid_size,bid_orders,bid_total,offer_price,offer_size,offer_orders,offer_total,spread".split(",")
FIGURES = ROW[5:]
SHOWN = 10                                 # so many differences are shown


class Published:
    """The publisher's books: by instrument, the numbers at which a figure changed, and the figures from there on."""

    def __init__(self, path):
        self.numbers, self.figures = {}, {}
        with open(path, newline="") as file:
            for row in csv.DictReader(file):
                self.numbers.setdefault(row["instrument"], []).append(int(row["number"]))
                self.figures.setdefault(row["instrument"], []).append([row[name] for name in FIGURES])

    def at(self, instrument, number):
        """What the book of an instrument says at a number; None where the publisher has no such book."""
        place = bisect.bisect_right(self.numbers.get(instrument, []), number)
        return self.figures[instrument][place - 1] if place else None


def fault(row, published):
    """What is wrong with a row, in words; None where nothing is."""
    shown = [row[name] for name in FIGURES]
    if row["mark"] == "stale":
        return "a stale row shows a figure" if row["as_of"] or any(shown) else None
    if row["mark"] not in ("current", "recovering"):
        return "its mark is none"
    if not row["as_of"].isdigit():
        return "it shows no number"
    if (row["mark"] == "current") != (int(row["as_of"]) == int(row["heard"])):
        return "its mark does not fit its numbers"
    told = published.at(row["instrument"], int(row["as_of"]))
    return None if shown == told else f"the publisher's book at {row['as_of']} is {told}"


def main():
    parser = argparse.ArgumentParser(description=__doc__.split("\n")[0])
    parser.add_argument("rows")
    parser.add_argument("books")
    parser.add_argument("--expect", type=int)
    asked = parser.parse_args()
    published, marks, wrong = Published(asked.books), {}, 0
    with open(asked.rows, newline="") as file:
        reader = csv.DictReader(file)
        if reader.fieldnames is None or reader.fieldnames[:len(ROW)] != ROW:
            sys.exit(f"{asked.rows}: the columns are {reader.fieldnames}, not {ROW}")
        for line, row in enumerate(reader, 2):
            marks[row["mark"]] = marks.get(row["mark"], 0) + 1
            found = fault(row, published)
            if found:
                wrong += 1
                if wrong <= SHOWN:
                    print(f"{asked.rows}:{line}: {found}\n    {','.join(row[name] for name in ROW)}")
    compared = marks.get("current", 0) + marks.get("recovering", 0)
    print(f"{compared} rows compared with the publisher's books, {wrong} wrong; {marks.get('stale', 0)} stale rows without figures")
    if wrong or compared == 0:
        sys.exit(1)
    if asked.expect is not None and compared != asked.expect:
        sys.exit(f"{asked.expect} rows were expected")


if __name__ == "__main__":
    main()
