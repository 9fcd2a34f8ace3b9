#!/usr/bin/env python3
"""Writes an extract of POIs for measurements: a header with a box, and dense nodes in raw blobs.

    bench/make_pois.py FILE [NODES [EVERY]]

By default 1,000,000 nodes, each a POI; with EVERY, one in so many. A POI has one tag of examples/hiking.toml and
another tag, six in ten have a name, and peaks have an elevation. The same numbers give the same bytes everywhere.
"""
import random
import sys

from make_extract import blob, counted, deltas, number, packed, zigzag

# The box in nanodegrees: left, right, top, bottom. It has some seventy tiles of zoom level 10.
LEFT, RIGHT, TOP, BOTTOM = 7_000_000_000, 10_000_000_000, 48_000_000_000, 46_000_000_000

# Kinds of POIs, and how many there are of each in a thousand.
KINDS = [
    (b"place", b"city", 1),
    (b"place", b"village", 49),
    (b"natural", b"peak", 150),
    (b"natural", b"saddle", 40),
    (b"natural", b"spring", 60),
    (b"waterway", b"waterfall", 10),
    (b"amenity", b"bench", 270),
    (b"amenity", b"drinking_water", 60),
    (b"amenity", b"shelter", 40),
    (b"amenity", b"parking", 70),
    (b"amenity", b"toilets", 20),
    (b"tourism", b"alpine_hut", 10),
    (b"tourism", b"viewpoint", 40),
    (b"tourism", b"information", 80),
    (b"highway", b"bus_stop", 90),
    (b"railway", b"station", 10),
]
NAMES = 500
OTHERS = 20
BLOCK = 8000

# The places of texts in the table of each block.
TEXTS = [b"", b"name", b"ele", b"operator"]
TEXTS += [b"Gr\xc3\xbcner Platz %d" % i for i in range(NAMES)]
FIRST_NAME = 4
FIRST_OTHER = len(TEXTS)
TEXTS += [b"operator %d" % i for i in range(OTHERS)]
FIRST_HEIGHT = len(TEXTS)
HEIGHTS = 45
TEXTS += [b"%d" % (100 * i) for i in range(HEIGHTS)]
FIRST_KIND = len(TEXTS)
TEXTS += [text for key, value, _ in KINDS for text in (key, value)]
TABLE = counted(1, b"".join(counted(1, text) for text in TEXTS))

# A thousand kinds, from which one is drawn.
DRAWN = [kind for kind, (_, _, count) in enumerate(KINDS) for _ in range(count)]
PEAK = KINDS.index((b"natural", b"peak", 150))


def header():
    sides = ((1, LEFT), (2, RIGHT), (3, TOP), (4, BOTTOM))
    box = counted(1, b"".join(number(side, zigzag(nano)) for side, nano in sides))
    return blob(b"OSMHeader", box + counted(4, b"OsmSchema-V0.6") + counted(4, b"DenseNodes"))


def tags(draw):
    """The tags of a POI, as places of texts: the tag of its kind last but one, behind its name and elevation."""
    kind = DRAWN[draw(len(DRAWN))]
    found = []
    if draw(10) < 6:
        found += (1, FIRST_NAME + draw(NAMES))
    if kind == PEAK:
        found += (2, FIRST_HEIGHT + draw(HEIGHTS))
    first = FIRST_KIND + 2 * kind
    return (*found, first, first + 1, 3, FIRST_OTHER + draw(OTHERS))


def block(ids, every, draw):
    """Dense nodes with these ids, in steps of 100 nanodegrees inside the box."""
    lats = [BOTTOM // 100 + draw((TOP - BOTTOM) // 100) for _ in ids]
    lons = [LEFT // 100 + draw((RIGHT - LEFT) // 100) for _ in ids]
    keys_vals = []
    for id_ in ids:
        if id_ % every == 0:
            keys_vals += tags(draw)
        keys_vals.append(0)
    columns = b"".join(counted(k, packed(deltas(column))) for k, column in ((1, ids), (8, lats), (9, lons)))
    return blob(b"OSMData", TABLE + counted(2, counted(2, columns + counted(10, packed(keys_vals)))))


def main():
    nodes = int(sys.argv[2]) if len(sys.argv) > 2 else 1_000_000
    every = int(sys.argv[3]) if len(sys.argv) > 3 else 1
    rng = random.Random(7).random
    with open(sys.argv[1], "wb") as out:
        out.write(header())
        for first in range(1, nodes + 1, BLOCK):
            ids = range(first, min(first + BLOCK, nodes + 1))
            out.write(block(ids, every, lambda n: int(rng() * n)))


if __name__ == "__main__":
    main()
