#!/usr/bin/env python3
"""Writes an extract of raw blobs for measurements: dense nodes, some with tags, then ways, then relations.

    bench/make_extract.py FILE [NODES WAYS RELATIONS]

By default 2,000,000 nodes, 250,000 ways of eight refs and two tags each, and 5,000 relations of six members.
"""
import random
import sys
from itertools import islice


def varint(n):
    out = bytearray()
    while n >= 128:
        out.append(n & 127 | 128)
        n >>= 7
    out.append(n)
    return bytes(out)


def zigzag(z):
    return 2 * z if z >= 0 else -2 * z - 1


def number(k, n):
    return varint(8 * k) + varint(n)


def counted(k, data):
    return varint(8 * k + 2) + varint(len(data)) + data


def packed(numbers):
    return b"".join(map(varint, numbers))


def deltas(numbers):
    before = 0
    for n in numbers:
        yield zigzag(n - before)
        before = n


def blob(kind, raw):
    body = counted(1, raw) + number(2, len(raw))
    head = counted(1, kind) + number(3, len(body))
    return len(head).to_bytes(4, "big") + head + body


STRINGS = [b"", b"name", b"highway", b"residential", b"amenity", b"bench", b"outer", b"inner"]
STRINGS += [b"Street %d" % i for i in range(200)]


def block(group):
    return blob(b"OSMData", counted(1, b"".join(counted(1, s) for s in STRINGS)) + counted(2, group))


def tags(rng):
    return [1, 2], [rng.randrange(8, len(STRINGS)), 3]


def dense(ids, rng):
    lats = [470000000 + rng.randrange(1000000) for _ in ids]
    lons = [80000000 + rng.randrange(1000000) for _ in ids]
    keys_vals = [n for _ in ids for n in ((4, 5, 0) if rng.random() < 0.1 else (0,))]
    columns = counted(1, packed(deltas(ids))) + counted(8, packed(deltas(lats))) + counted(9, packed(deltas(lons)))
    return counted(2, columns + counted(10, packed(keys_vals)))


def way(id_, nodes, rng):
    keys, vals = tags(rng)
    first = rng.randrange(1, max(2, nodes - 8))
    refs = packed(deltas(range(first, first + 8)))
    return counted(3, number(1, id_) + counted(2, packed(keys)) + counted(3, packed(vals)) + counted(8, refs))


def relation(id_, ways, rng):
    keys, vals = tags(rng)
    members = [rng.randrange(1, ways + 1) for _ in range(6)]
    roles = packed(rng.choice((6, 7)) for _ in members)
    columns = counted(8, roles) + counted(9, packed(deltas(members))) + counted(10, packed([1] * 6))
    return counted(4, number(1, id_) + counted(2, packed(keys)) + counted(3, packed(vals)) + columns)


def main():
    nodes, ways, relations = map(int, sys.argv[2:5] or (2000000, 250000, 5000))
    rng = random.Random(7)
    with open(sys.argv[1], "wb") as out:
        out.write(blob(b"OSMHeader", counted(4, b"OsmSchema-V0.6") + counted(4, b"DenseNodes")))
        ids = iter(range(1, nodes + 1))
        while part := list(islice(ids, 8000)):
            out.write(block(dense(part, rng)))
        for count, one in ((ways, lambda i: way(i, nodes, rng)), (relations, lambda i: relation(i, ways, rng))):
            ids = iter(range(1, count + 1))
            while part := list(islice(ids, 8000)):
                out.write(block(b"".join(map(one, part))))


if __name__ == "__main__":
    main()
