#!/usr/bin/env python3
"""Tells the logs of range and nearest queries in words: each record with the reason of each mark, and what the tests take.

Use: words.py INDEX LOG. Both files are read as docs/FORMATS.md has them. Each test is computed anew, and has to allow its mark; but this is
no verifier: `mtree verify` is. Only the standard library is needed."""

import functools
import itertools
import struct
import sys

PAGE = 4096
MOST = 1 << 38
SKIP, FAR, NEAR = 0, 1, 2


def l1(x, y):
    return sum(abs(a - b) for a, b in zip(x, y))


def hamming(x, y):
    return sum(a != b for a, b in zip(x, y))


def greatest(x, y):
    return max(abs(a - b) for a, b in zip(x, y))


def kendall(x, y):
    return sum((x[i] < x[j]) != (y[i] < y[j]) for i, j in itertools.combinations(range(len(x)), 2))


def hausdorff(x, y):
    return max(min(abs(a - b) for b in other) for one, other in ((x, y), (y, x)) for a in one)


def halves(together):
    """The metric that puts l1 of the first half and hamming of the second together."""
    return lambda x, y: together((l1(x[: len(x) // 2], y[: len(y) // 2]), hamming(x[len(x) // 2 :], y[len(y) // 2 :])))


# The metrics by their kinds in a head, from 1 on.
METRICS = (None, hamming, l1, greatest, kendall, hausdorff, halves(sum), halves(max), lambda x, y: min(l1(x, y), 65535))



class Node:
    def __init__(self, page, level, entries):
        self.page, self.level, self.entries = page, level, entries


class Entry:
    """An entry of a node: an object with its id and the radius 0, or a subtree with the page of its node."""

    def __init__(self, name, radius, stored, point):
        self.name, self.radius, self.stored, self.point = name, radius, stored, point


class Index:
    """An index file of version 2."""

    def __init__(self, path):
        with open(path, "rb") as file:
            self.bytes = file.read()
        if self.bytes[:10] != b"MTREEIDX\0\2":
            sys.exit(f"{path} is no index of version 2")
        self.distance, self.dim = METRICS[self.bytes[10]], self.bytes[11]
        self.slots = [struct.unpack(">B7xQIIII", self.bytes[at * PAGE : at * PAGE + 32]) for at in (1, 2)]
        self.live = max((side for side in (0, 1) if self.slots[side][0] == 0xA5), key=lambda side: self.slots[side][1])
        self.gate, self.generation, self.root, self.height, self.objects, self.pages = self.slots[self.live]

    def node(self, page):
        held = self.bytes[page * PAGE : (page + 1) * PAGE]
        entries = []
        for i in range(struct.unpack(">H", held[2:4])[0]):
            at = 16 + i * (20 + 4 * self.dim)
            name, middle, stored = struct.unpack(">IQQ", held[at : at + 20])
            point = struct.unpack(f">{self.dim}I", held[at + 20 : at + 20 + 4 * self.dim])
            entries.append(Entry(name, middle if held[0] else 0, stored, point))
        return Node(page, held[0], entries)

    @functools.cached_property
    def nodes(self):
        """The nodes of the live tree, a level after the other, each with the entry above it."""
        found = [(self.node(self.root), None)]
        for node, _ in found:
            if node.level:
                found += [(self.node(entry.name), entry) for entry in node.entries]
        return found


class Log:
    """A log of a range or a nearest query."""

    def __init__(self, held):
        if held[:5] != b"MTLG\1" or held[5] not in (1, 2):
            sys.exit("these are no logs of range and nearest queries")
        self.kind = {1: "range", 2: "nearest"}[held[5]]
        self.generation, self.root, self.bound, count = struct.unpack(">QIQB", held[6:27])
        at = 27 + 4 * count
        self.point = struct.unpack(f">{count}I", held[27:at])
        self.answers = [struct.unpack(">IQ", held[at + 4 + 12 * i : at + 16 + 12 * i]) for i in range(struct.unpack(">I", held[at : at + 4])[0])]
        at += 4 + 12 * len(self.answers)
        self.records = []
        (records,) = struct.unpack(">I", held[at : at + 4])
        at += 4
        for _ in range(records):
            page, marks = struct.unpack(">IB", held[at : at + 5])
            self.records.append((page, list(held[at + 5 : at + 5 + marks])))
            at += 5 + marks
        self.rho = min(self.bound, MOST)
        if self.kind == "nearest":
            self.rho = min(self.answers[-1][1], MOST) if len(self.answers) == self.bound else MOST

    def query(self):
        return ",".join([self.kind, str(self.bound), *map(str, self.point)])


def logs_in(path):
    with open(path, "rb") as file:
        held = file.read()
    while held:
        size = 8 + int.from_bytes(held[:8], "big")
        yield Log(held[8:size])
        held = held[size:]


class Mark:
    """A mark of a log: the entry, the routing entry above it, and the test with its numbers."""

    def __init__(self, index, log, node, above, entry, kind):
        self.node, self.above, self.entry, self.kind = node, above, entry, kind
        self.distance = index.distance(entry.point, log.point)
        reach = f"{log.rho} + {entry.radius}" if node.level else f"{log.rho}"
        most = log.rho + entry.radius
        if kind == SKIP:
            of_above = index.distance(above.point, log.point)
            self.words, self.is_so = f"skip |{of_above} - {entry.stored}| > {reach}", abs(of_above - entry.stored) > most
        elif kind == FAR:
            self.words, self.is_so = f"far {self.distance} > {reach}", self.distance > most
        else:
            # (a subtree may always be opened; a search opens one only where the test does not rule it out)
            is_within = self.distance <= most
            self.words, self.is_so = f"near {self.distance} {'<=' if is_within else '>'} {reach}", is_within or node.level > 0


def marks_of(index, log):
    """Each record of a log as its node, the depth, and its marks."""
    records = iter(log.records)

    def walk(page, above, depth):
        named, kinds = next(records)
        node = index.node(page)
        if named != page or len(kinds) != len(node.entries):
            sys.exit("the log is of another file")
        marks = [Mark(index, log, node, above, entry, kind) for entry, kind in zip(node.entries, kinds)]
        if not all(mark.is_so for mark in marks):
            sys.exit(f"page {page} has a mark that its test does not allow")
        yield node, depth, above, marks
        for mark in marks:
            if node.level and mark.kind == NEAR:
                yield from walk(mark.entry.name, mark.entry, depth + 1)

    return list(walk(log.root, None, 0))


def words(index, log):
    """A log in words: the query and its answers, each record with its marks and their tests, and what they cost."""
    lines = [log.query(), f"hits {len(log.answers)}", *(f"{name} {away}" for name, away in log.answers)]
    found = marks_of(index, log)
    for node, depth, above, marks in found:
        room = "  " * depth
        where = f", around {','.join(map(str, above.point))}, radius {above.radius}" if above else ", the root"
        lines.append(f"{room}page {node.page}, level {node.level}{where}")
        for number, mark in enumerate(marks):
            name = f"{'page' if node.level else 'object'} {mark.entry.name}"
            lines.append(f"{room}  {number:2} {name:10} {','.join(map(str, mark.entry.point)):>7}  {mark.words}")
    nodes = len(index.nodes)
    kinds = [mark.kind for _, _, _, marks in found for mark in marks]
    counts = f"{kinds.count(SKIP)} skip, {kinds.count(FAR)} far, {kinds.count(NEAR)} near"
    lines.append(f"opened {len(found)} of {nodes} nodes; {len(kinds)} entries: {counts}; {len(kinds) - kinds.count(SKIP)} distances")
    return lines


class Carried:
    """A carried log: the number of the file's pages, and the carried pages with their paths."""

    def __init__(self, path):
        with open(path, "rb") as file:
            held = file.read()[8:]
        assert held[:5] == b"MTPF\1"
        self.pages, count = struct.unpack(">II", held[5:13])
        self.paths, at = {}, 13
        for _ in range(count):
            (page,) = struct.unpack(">I", held[at : at + 4])
            bytes_of_page, digests = held[at + 4 : at + 4 + PAGE], held[at + 4 + PAGE]
            at += 5 + PAGE
            self.paths[page] = (bytes_of_page, [held[at + 32 * i : at + 32 * i + 32] for i in range(digests)])
            at += 32 * digests


if __name__ == "__main__":
    if len(sys.argv) != 3:
        sys.exit(__doc__)
    shown = Index(sys.argv[1])
    for each in logs_in(sys.argv[2]):
        print("\n".join(words(shown, each)))
