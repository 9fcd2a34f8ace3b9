#!/usr/bin/env python3
"""Writes the input of crates/run_try: a header with a small box, and 300 dense nodes in two raw blobs.

    bench/make_run_try.py crates/run_try/data/input.osm.pbf
"""
import sys

from make_extract import blob, counted, deltas, number, packed, zigzag

# The box in nanodegrees: left, right, top, bottom. It has more tiles of zoom level 14 than a page of 128 rows takes.
SIDES = 8_000_000_000, 8_200_000_000, 47_200_000_000, 47_000_000_000
NODES = 300

# The places of texts in the table of each block.
TEXTS = [b"", b"amenity", b"bench", b"natural", b"peak", b"name"] + [b"Peak %d" % i for i in range(8)]
FIRST_NAME = 6


def header():
    box = counted(1, b"".join(number(side, zigzag(nano)) for side, nano in enumerate(SIDES, 1)))
    return blob(b"OSMHeader", box + counted(4, b"OsmSchema-V0.6") + counted(4, b"DenseNodes"))


def tags(i):
    """A peak with a name, nothing, or a bench."""
    if i % 40 == 0:
        return [3, 4, 5, FIRST_NAME + i // 40]
    return [] if i % 3 == 0 else [1, 2]


def block(nodes):
    lats = [470_010_000 + (37 * i % 17) * 110_000 + 7 * i for i in nodes]
    lons = [80_010_000 + (53 * i % 19) * 100_000 + 11 * i for i in nodes]
    columns = (1, [i + 1 for i in nodes]), (8, lats), (9, lons)
    dense = b"".join(counted(field, packed(deltas(numbers))) for field, numbers in columns)
    dense += counted(10, packed([n for i in nodes for n in [*tags(i), 0]]))
    return blob(b"OSMData", counted(1, b"".join(counted(1, text) for text in TEXTS)) + counted(2, counted(2, dense)))


with open(sys.argv[1], "wb") as out:
    out.write(header() + block(range(170)) + block(range(170, NODES)))
