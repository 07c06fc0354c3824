"""Tries the Python package beside plain scans: every metric, array and way of writing, with the library and by the program alone.

Use: compare_package.py PROGRAM, in an empty folder, with the package where Python finds it."""

import array
import contextlib
import copy
import fcntl
import itertools
import os
import pickle
import subprocess
import sys
import tempfile
import threading
import time

import mtree
from mtree import _library, _plan, _program
from trying import PROGRAM, ended, raises, run, same

HERE = os.path.dirname(os.path.abspath(__file__))
try:
    import numpy
except ImportError:
    numpy = None


@contextlib.contextmanager
def without_library():
    held, _library.library = _library.library, None
    try:
        yield
    finally:
        _library.library = held


BY_PROGRAM = "from mtree import _plan; _plan.is_here = lambda: False\n"
"""The first line of a program of Python whose inserts and loads go over the program."""


@contextlib.contextmanager
def by_program():
    """Inserts and loads go over the program."""
    held, _plan.is_here = _plan.is_here, lambda: False
    try:
        yield
    finally:
        _plan.is_here = held


@contextlib.contextmanager
def other_program(text):
    """A script of the shell in the program's place."""
    with open("other", "w") as file:
        file.write("#!/bin/sh\n" + text)
    os.chmod("other", 0o755)
    kept = os.environ.get("MTREE_PROGRAM")
    os.environ["MTREE_PROGRAM"] = os.path.abspath("other")
    try:
        yield
    finally:
        del os.environ["MTREE_PROGRAM"]
        if kept is not None:
            os.environ["MTREE_PROGRAM"] = kept


def python(text, *words, **others):
    """Starts Python on a program."""
    return subprocess.Popen([sys.executable, "-c", text, *words], stdout=subprocess.PIPE, stderr=subprocess.STDOUT, **others)


def wait_for(name):
    deadline = time.time() + 60
    while not os.path.exists(name) and time.time() < deadline:
        time.sleep(0.01)


def numbers(seed, count, most):
    for _ in range(count):
        seed = (seed * 1103515245 + 12345) % (1 << 31)
        yield seed // 8 % most


def l1(a, b):
    return sum(abs(x - y) for x, y in zip(a, b))


def hamming(a, b):
    return sum(x != y for x, y in zip(a, b))


METRICS = {
    "hamming": hamming,
    "l1": l1,
    "max": lambda a, b: max(abs(x - y) for x, y in zip(a, b)),
    "kendall": lambda a, b: sum((a[i] < a[j]) != (b[i] < b[j]) for i in range(len(a)) for j in range(i)),
    "hausdorff": lambda a, b: max(min(abs(x - y) for y in other) for one, other in ((a, b), (b, a)) for x in one),
    "mixsum": lambda a, b: l1(a[:3], b[:3]) + hamming(a[3:], b[3:]),
    "mixmax": lambda a, b: max(l1(a[:3], b[:3]), hamming(a[3:], b[3:])),
    "l1cap": lambda a, b: min(65535, l1(a, b)),
}


def points_of(metric, count, seed):
    """Points of six numbers that the metric takes."""
    most = {"hamming": 4, "l1cap": 1 << 16}.get(metric, 20)
    drawn = list(numbers(seed, 6 * count, most if metric != "kendall" else 1 << 20))
    rows = [drawn[6 * i:6 * i + 6] for i in range(count)]
    if metric == "kendall":
        return [[sorted(row).index(c) if len(set(row)) == 6 else i for i, c in enumerate(row)] for row in rows]
    if metric == "hausdorff":
        return [(lambda held: held + [held[-1]] * (6 - len(held)))(sorted(set(row))) for row in rows]
    return rows


def scan(distance, rows, tags, point):
    return sorted((distance(row, point), id, tag) for id, (row, tag) in enumerate(zip(rows, tags)))


def plain(given):
    """Arrays as lists."""
    return [plain(one) for one in given] if isinstance(given, (list, tuple)) or hasattr(given, "tolist") and getattr(given, "ndim", 0) else int(given)


def compare_metrics():
    for metric, distance in METRICS.items():
        rows, asked = points_of(metric, 150, 7), points_of(metric, 12, 99)
        tags = [(id * 7919) % 1000 + (1 << 63) for id in range(150)]
        name = f"{metric}.mt"
        with mtree.Index.from_array(name, rows, metric=metric, tags=tags) as index:
            same((index.metric, index.dim, len(index), index.generation, index.path), (metric, 6, 150, 2, name), f"properties of {name}")
            wanted = [scan(distance, rows, tags, point) for point in asked]
            radius = wanted[0][20][0]
            near = [[hit for hit in hits if hit[0] <= radius] for hits in wanted]
            for way in (contextlib.nullcontext, without_library):
                with way():
                    for jobs in (1, 3):
                        found = index.kneighbors(asked, 9, return_tags=True, n_jobs=jobs)
                        same(plain(found), [[[hit[i] for hit in hits[:9]] for hits in wanted] for i in (0, 1, 2)], f"kneighbors of {metric}")
                        found = index.radius_neighbors(asked, radius, return_tags=True, n_jobs=jobs)
                        same(plain(found), [[[hit[i] for hit in hits] for hits in near] for i in (0, 1, 2)], f"radius_neighbors of {metric}")
                    same([[hit[1], hit[0], hit[2]] for hit in index.nearest(asked[0], 9)], [list(hit) for hit in wanted[0][:9]], f"nearest of {metric}")
                    same([[(hit[1], hit[0], hit[2]) for hit in hits] for hits in index.range_of_each(asked, radius, 2)], near, f"range of {metric}")
                    same([(hit[1], hit[0], hit[2]) for hit in index.iter_nearest(iter(asked[1]))], wanted[1], f"iter_nearest of {metric}")
            pairs = sorted((left, right, distance(a, b)) for left, a in enumerate(rows) for right, b in enumerate(rows) if distance(a, b) <= radius)
            same(index.join(index, radius), pairs, f"join of {metric}")
    with mtree.Index("kendall.mt") as index:
        for way in (contextlib.nullcontext, without_library):
            with way():
                raises(mtree.NoQuery, lambda: index.kneighbors([[0, 1, 2, 3, 4, 5], [1, 1, 2, 3, 4, 5]], 2), "no ranking", "row 1: the point is not of")
                raises(mtree.NoQuery, lambda: index.nearest([1, 1, 2, 3, 4, 5], 2), "no ranking, alone", "the point is not of")


class Held(list):
    """A list that can have attributes."""


def compare_points():
    """What is no point, and what there is too little of."""
    rows = points_of("l1", 40, 3)
    with mtree.Index.from_array("points.mt", rows, metric="l1") as index:
        for way in (contextlib.nullcontext, without_library):
            with way():
                raises(mtree.NoQuery, lambda: index.kneighbors(rows, 41), "too many neighbours", "n_neighbors is 41, and the index holds 40 objects")
                raises(mtree.NoQuery, lambda: index.kneighbors([[1] * 6, [1] * 5]), "a row too short", "row 1: the point has 5 numbers, the index 6")
                raises(mtree.NoQuery, lambda: index.kneighbors([[1] * 6, [1, 2, 3, 4, 5, 0.5]]), "a fraction", "row 1: a coordinate is a whole number, and 0.5")
                raises(mtree.NoQuery, lambda: index.kneighbors([1, 2, 3]), "numbers as points", "row 0: a point is a list")
                raises(mtree.NoQuery, lambda: index.kneighbors(7), "a number as points", "a list of points")
                raises(mtree.NoQuery, lambda: index.kneighbors(rows, 0), "no neighbours", "at least 1")
                raises(mtree.NoQuery, lambda: index.radius_neighbors(rows, -0.5), "a negative radius", "-0.5")
                raises(mtree.NoQuery, lambda: index.iter_nearest([1] * 5), "a point too short, one after the other", "has 5 numbers, the index 6")
                raises(ValueError, lambda: index.kneighbors(rows, 2, n_jobs=0), "no threads", "n_jobs")
                same(plain(index.kneighbors(rows, 2, n_jobs=-1)), plain(index.kneighbors(rows, 2, n_jobs=None)), "a thread on each processor")
                same(plain(index.kneighbors([], 5)), [[], []], "no points")
                same(plain(index.radius_neighbors([], 5)), [[], []], "no points within a radius")
                same(len(index.nearest([1] * 6, 1 << 70)), 40, "more than there are")
                held = Held([1] * 6)
                held.__array_interface__ = {"shape": (6,), "typestr": "<u4", "version": 3, "data": array.array("I", held).tobytes()}
                same(index.nearest(held, 3), index.nearest([1] * 6, 3), "an array whose data is no address")
                same([index.nearest([1] * 6, 40)[:5]], [list(itertools.islice(index.iter_nearest([1] * 6), 5))], "the first ones")
        kept, _program._SCRIPT_BYTES = _program._SCRIPT_BYTES, 100
        same(index.insert(rows, range(40)), list(range(40, 80)), "scripts above the limit")
        with without_library():
            same(plain(index.kneighbors(rows, 2, return_tags=True)), [[[0, 0]] * 40, [[i, i + 40] for i in range(40)], [[i, i] for i in range(40)]], "queries above it")
        with by_program():
            raises(ValueError, lambda: index.load(rows), "a load above the limit", "insert the others after it")
        _program._SCRIPT_BYTES = kept
        same(index.insert([]), [], "an insert of nothing")
        raises(mtree.NoQuery, lambda: index.insert([[1] * 6, [1, 2, 3, 4, 5, -6]]), "a negative number", "row 1: a coordinate")
        raises(ValueError, lambda: index.insert([[1] * 6], [-1]), "a negative tag", "-1")
        raises(ValueError, lambda: index.insert([[1] * 6], [0.5]), "half a tag", "0.5")
        same(len(index), 80, "what was added of all this")
        same((bool(index), repr(index)), (True, "mtree.Index('points.mt')"), "words of an index")
        same(pickle.loads(pickle.dumps(index)).nearest([1] * 6, 3), index.nearest([1] * 6, 3), "an index that was pickled")
    for call in (lambda: len(index), lambda: index.insert([[1] * 6]), lambda: index.join(index, 1), lambda: index.seal(), lambda: index.shape(),
                 lambda: index.kneighbors(rows, 1), lambda: index.iter_nearest([1] * 6), lambda: index.dim, lambda: index.audit()):
        raises(ValueError, call, "a closed index", "the index points.mt is closed")
    raises(ValueError, lambda: mtree.Index.from_array("none.mt", [], metric="l1"), "an index of nothing", "no rows")
    raises(mtree.Refused, lambda: mtree.Index.from_array("none.mt", [[0, 1], [1, 1]], metric="kendall"), "no ranking", "unfit")
    raises(mtree.Refused, lambda: mtree.Index.from_array("none.mt", [[0, 1], [1]], metric="l1"), "a row too short", "refused row 1")
    same(os.path.exists("none.mt"), False, "a file of rows that were refused")
    with mtree.Index.create("few.mt", metric="l1", dim=1, max_objects=3, promote="mrad", split="balanced") as index:
        same(index.load([[1], [2]], [5, 6]), 2, "a load")
        try:
            same(index.insert([[3], [4], [5]]), "no answer", "more than the limit")
        except mtree.Refused as refused:
            same((refused.row, refused.ids), (1, [2]), "the row above the limit")
            again = pickle.loads(pickle.dumps(refused))
            same((str(again), again.row, again.ids), (str(refused), 1, [2]), "a refusal that was pickled")
        same((index.max_objects, index.generation, open("few.mt", "rb").read()[12:14]), (3, 3, b"\1\2"), "what was asked for")


def compare_arrays():
    if numpy is None:
        print("bindings: there is no numpy here, so arrays of it are not tried")
        return
    rows = numpy.array(points_of("l1", 60, 5))
    kinds = ["?", *"bBhHiIlLqQ", ">u2", ">i4", ">u4", ">i8", "f2", "f4", "f8", "g", "O"]
    for number, kind in enumerate(kinds):
        held = (rows % 2 if kind == "?" else rows).astype(kind)
        orders = [held, numpy.asfortranarray(held), held[::-1][::-1], numpy.repeat(numpy.repeat(held, 2, 0), 3, 1)[::2, ::3]]
        plain_rows = [[int(c) for c in row] for row in held.tolist()]
        with mtree.Index.from_array(f"kind{number}.mt", orders[number % 4], metric="l1", tags=numpy.arange(60).astype("u2")) as index:
            wanted = [scan(l1, plain_rows, range(60), point)[:4] for point in plain_rows[:10]]
            for order in orders:
                same(plain(index.kneighbors(order[:10], 4)), [[[hit[i] for hit in hits] for hits in wanted] for i in (0, 1)], f"an array of {kind}")
                same(index.nearest(order[3], 4), [mtree.Hit(id, d, tag) for d, id, tag in wanted[3]], f"a point of {kind}")
                same([hit.id for hit in itertools.islice(index.iter_nearest(order[3]), 4)], [hit[1] for hit in wanted[3]], f"iter_nearest of {kind}")
    with mtree.Index("kind1.mt") as index:
        distances, ids = index.kneighbors(rows, 3)
        same((distances.dtype, ids.dtype, distances.shape), ("int64", "int64", (60, 3)), "types of arrays")
        same(index.kneighbors(rows, 3, return_tags=True)[2].dtype, "uint64", "the type of tags")
        same([one.shape for one in index.kneighbors(numpy.empty((0, 6)), 3)], [(0, 3), (0, 3)], "an empty array")
        same([one.shape for one in index.radius_neighbors(numpy.empty((0, 6)), 3)], [(0,), (0,)], "an empty array within a radius")
        same(index.insert(numpy.empty((0, 6), int)), [], "an insert of an empty array")
        same(index.insert(rows[:2].astype(float), numpy.array([7, 8])), [60, 61], "an insert of whole floats")
        for wrong, words in ((rows[0], "has 1"), (rows[None], "has 3"), (numpy.array(3), "has 0"), (rows[:, :5], "row 0: the point has 5 numbers"),
                             (rows + 0.25, "row 0: a coordinate is a whole number"), (rows - 1, "and -1 is none"), (numpy.where(rows < 20, rows, 0) + numpy.nan, "nan"),
                             (rows + numpy.inf, "inf"), (rows + (1 << 32), "4294967295"), (rows.astype(str), "whole number"), (rows * 1j, "whole numbers")):
            raises(mtree.NoQuery, lambda: index.kneighbors(wrong, 3), f"an array that is none: {words}", words)
            raises(ValueError, lambda: index.insert(wrong), f"rows that are none: {words}", "dimension" if "5 numbers" in words else words)
        same(len(index), 62, "objects after all this")
        raises(mtree.NoQuery, lambda: index.nearest(numpy.array(3), 1), "an array of no dimension as a point", "has 0")
        distances, ids = index.kneighbors(rows, 3)
        with without_library():
            same(plain(index.kneighbors(rows, 3)), plain([distances, ids]), "arrays by the program alone")
        hidden = sys.modules.pop("numpy")
        sys.modules["numpy"] = None
        try:
            same(index.kneighbors(rows.tolist(), 3), (distances.tolist(), ids.tolist()), "lists without numpy")
            same(index.radius_neighbors(rows.tolist()[:2], 0, return_distance=False), [[0, 60], [1, 61]], "lists without numpy within a radius")
            raises(mtree.NoQuery, lambda: index.kneighbors(rows, 3), "an array without numpy", "needs numpy")
        finally:
            sys.modules["numpy"] = hidden


def compare_children():
    """What the program tells through the package."""
    name = "child.mt"
    run("gen", name, "--metric", "l1", "--dim", "2", "--count", "300")
    with mtree.Index(name) as index:
        text = run("shape", name)[1]
        shape = index.shape()
        told = [f"{n.level} {n.entries} {'-' if n.centre is None else ','.join(map(str, n.centre))} {'-' if n.radius is None else n.radius}" for n in shape.nodes]
        same(f"height {shape.height}\nobjects {shape.objects}\nnodes {len(shape.nodes)}\n" + "".join(f"{line}\n" for line in told), text, "a shape")
        same(f"sealed {index.seal().hex()}\n", run("seal", name)[1], "a seal")
        same(text_of(index.stats()), run("stats", name)[1], "stats")
        tags, rows = index.rows()
        lines = [",".join(map(str, (int(tag), *map(int, row)))) for tag, row in zip(tags, rows)]
        same("".join(f"{line}\n" for line in [f"tload,{len(lines)}", *lines]), run("dump", name)[1], "rows")
        run("batch", name, "--log", "child.log", given="nearest,3,5,5\nrange,20000,7,7\n")
        log = open("child.log", "rb").read()
        run("proof", name, "--log", "child.log", "--proof", "child.proof")
        carried = index.carry(log)
        same(carried, open("child.proof", "rb").read(), "carried logs")
        same(index.carry(memoryview(log)), carried, "carried logs of a memoryview")
        raises(mtree.Rejected, lambda: index.carry(log[:-1]), "a log that is cut", "log rejected")
        raises(TypeError, lambda: index.carry("abc"), "a log that is a text")
        if has_logs:
            same(mtree.prove(carried, index.seal()).text, run("proof", "--log", "child.proof", "--root", index.seal().hex())[1], "a proof")
            same(index.carry(index.nearest_with_log([5, 5], 3)[1] + index.range_with_log([7, 7], 20000)[1]), carried, "logs of the library, carried")
            raises(ValueError, lambda: mtree.prove(carried, b"short"), "a short digest", "32 bytes, and this one 5")
            shown = run("show", name, "--log", "child.log")[1]
            same(index.show(bytearray(log)), shown, "logs in words")
            same(index.show(log[:-1]), "log rejected cut\n", "a log that is cut, in words")
            first, second = shown.index("frame 1"), shown.index("log accepted")
            same(index.explain([5, 5], 3), shown[:first] + shown[second:], "an explained nearest query")
            same(index.explain([7, 7], radius=20000), "frame 0" + shown[first + 7:], "an explained range query")
            raises(TypeError, lambda: index.explain([5, 5]), "nothing to explain", "a count or a radius")
            raises(mtree.NoQuery, lambda: index.explain([5, 5], 0), "none of the nearest explained")
        other = mtree.Index.from_array("other.mt", [[1, 2, 3]], metric="l1")
        same([list(map(list, one)) if number else list(one) for number, one in enumerate(other.rows())], [[0], [[1, 2, 3]]], "one row")
        with mtree.Index.create("nothing.mt", metric="l1", dim=3) as nothing:
            same([*map(len, nothing.rows()), *nothing.stats()[6:9]], [0, 0, 0, 0, 1], "no rows")
        raises(mtree.Rejected, lambda: index.join(other, 3), "a join of two spaces", "rejected spaces")
        run("join", name, "--other", name, "--radius", "9", "--log", "join.log")
        with open("join.log", "rb") as file:
            joined = file.read()
        same(index.show(joined, other=name), run("show", name, "--other", name, "--log", "join.log")[1], "a join's log in words")
        same(index.show(joined[:-1], other=index), "log rejected cut\n", "a join's log that is cut, in words")
        raises(mtree.Rejected, lambda: index.show(joined, other=other), "a join's log of two spaces in words", "rejected spaces")
        raises(FileNotFoundError, lambda: index.show(joined, other="missing.mt"), "a join's log with nothing", "missing.mt")
        same(index.join("child.mt", float("inf"))[-1][:2], (299, 299), "a join of all with all")
        raises(mtree.NoQuery, lambda: index.join(other, -1), "a join within a negative radius", "-1")
        raises(FileNotFoundError, lambda: index.join("missing.mt", 1), "a join with nothing", "missing.mt")
        os.mkdir("elsewhere")
        os.chdir("elsewhere")
        same((index.insert([[1, 1]]), f"sealed {index.seal().hex()}\n"), ([300], run("seal", f"../{name}")[1]), "a relative path from another folder")
        os.chdir("..")
        damaged = bytearray(open(name, "rb").read())
        for page in range(3, len(damaged) // 4096):
            damaged[4096 * page] = 15
        open("damaged.mt", "wb").write(damaged)
        with mtree.Index("damaged.mt") as broken:
            raises(mtree.Rejected, broken.seal, "a seal of a damaged file", "rejected page bad")
            raises(mtree.Damaged, broken.shape, "the shape of a damaged file", "fault damaged bad")
            raises(mtree.Damaged, broken.stats, "the stats of a damaged file", "fault damaged bad")
            raises(mtree.Damaged, broken.rows, "the rows of a damaged file", "fault damaged bad")
            with without_library():
                raises(mtree.Damaged, lambda: broken.kneighbors([[1, 1]], 1), "a query on a damaged file", "fault damaged bad")
    head = open("other.mt", "rb").read()
    cases = [(0, b"X"), (9, b"\3"), (10, b"\0"), (10, b"\11"), (11, b"\0"), (11, b"\x41"), (10, b"\6"), (12, b"\0"), (13, b"\3"), (14, b"\1"), (16, b"\2"),
             (16, b"\0\0\0\0"), (20, b"\1"), (4095, b"\1"), (4096, b"\0"), (8192, b"\0"), (8207, b"\1"), (8206, b"\1"), (8200, b"\1"), (8208, b"\1"), (8215, b"\17"),
             (8211, b"\2"), (8219, b"\2"), (8223, b"\3"), (8223, b"\xff"), (8193, b"\1"), (12287, b"\1"), (4097, b"\1"), (8216, b"\1")]
    for place, held in cases + [(None, size) for size in (0, 1, 4096, 12287, 12288, 16384)]:
        wrong = head[:held] if place is None else head[:place] + held + head[place + len(held):]
        open("wrong.mt", "wb").write(wrong)
        status, text = run("batch", "wrong.mt", given="count\n")
        with mtree.Index("wrong.mt") as index:
            try:
                same((0, f"count {len(index)}\n"), (status, text), f"a file with {held!r} at {place}")
            except mtree.NoIndex as error:
                same((6, f"{error}\n"), (status, text), f"a file with {held!r} at {place}")


def text_of(stats):
    """The lines of the program's `stats`."""

    def spread(numbers):
        return "-" if numbers is None else " ".join(map(str, numbers))

    words = ["metric", "dim", "promote", "split", "max", "generation", "objects", "height", "nodes", "pages", "free"]
    lines = [f"{word} {value}" for word, value in zip(words, stats)] + [f"bytes {4096 * stats.pages}"]
    lines += [f"level {one.level} nodes {one.nodes} entries {spread(one.entries)} radius {spread(one.radii)}" for one in stats.levels]
    return "".join(f"{line}\n" for line in lines)


def compare_threads():
    """Four threads that ask, beside one that adds, through one index."""
    rows = points_of("l1", 100, 11)
    with mtree.Index.from_array("threads.mt", rows, metric="l1") as index:
        wrong, ended = [], []

        def ask():
            while True:
                try:
                    seen = len(index)
                    ids = [hit.id for hit in index.range([0] * 6, float("inf"))]
                    if sorted(ids) != list(range(len(ids))) or len(ids) < seen or (len(ids) - 100) % 5:
                        wrong.append(ids)
                    found = index.kneighbors(rows[:3], 100, n_jobs=2, return_distance=False)
                    if any(len(set(row)) != 100 for row in plain(found)):
                        wrong.append(found)
                except ValueError as error:
                    ended.append(str(error))
                    return
                except Exception as error:
                    wrong.append(error)
                    return

        threads = [threading.Thread(target=ask) for _ in range(4)]
        for thread in threads:
            thread.start()
        ids = [index.insert(points_of("l1", 5, round)) for round in range(8)]
        index.close()
        for thread in threads:
            thread.join()
        same((wrong, sum(ids, [])), ([], list(range(100, 140))), "threads beside an insert")
        same(ended, ["the index threads.mt is closed"] * 4, "threads after the end")
    index = mtree.Index("threads.mt")
    with index._file.reading():
        closing = threading.Thread(target=index.close)
        closing.start()
        closing.join(0.1)
        same(closing.is_alive(), True, "a close beside a call")
    closing.join()
    raises(ValueError, lambda: len(index), "what was closed beside a call", "is closed")


def compare_processes():
    """Other processes: one that adds between queries, one that was forked, and such as are killed while they add."""
    with mtree.Index.from_array("shared.mt", [[5], [9]], metric="l1") as index:
        going = index.iter_nearest([0])
        same(next(going).id, 0, "the first")
        child = python("import mtree, sys; print(mtree.Index('shared.mt').insert([[7], [1], [20]]))")
        same(child.communicate()[0], b"[2, 3, 4]\n", "an insert by another process")
        same([hit.id for hit in going], [1], "the others, as they were when they were asked for")
        same([hit.id for hit in index.iter_nearest([0])], [3, 0, 2, 1, 4], "all, once more")
        same((len(index), index.generation), (5, 5), "what is told after it")

        # A process that was forked ends its call while one of this process runs, whose lock stays.
        go_on, start = os.pipe()
        child_id = os.fork()
        if child_id == 0:
            os.read(go_on, 1)
            os._exit(0 if index.nearest([0], 1)[0].id == 3 and len(copy.copy(index)) == 5 else 1)
        with index._file.reading():
            os.write(start, b"!")
            same(os.waitpid(child_id, 0)[1], 0, "a process that was forked")
            with open("shared.mt", "rb") as other:
                raises(BlockingIOError, lambda: fcntl.flock(other, fcntl.LOCK_EX | fcntl.LOCK_NB), "the lock, after a process that was forked")
        os.close(go_on)
        os.close(start)

    # The program has its whole script before it starts, so the end of Python cuts no row.
    with other_program("touch started; sleep 0.2; wc -c >size.part; mv size.part size\n"):
        child = python(BY_PROGRAM + "import mtree; mtree.Index('shared.mt').insert([[i] for i in range(100000)])")
        wait_for("started")
        child.kill()
        child.communicate()
        wait_for("size")
    same(int(open("size").read()), sum(len(f"insert,{i}\n") for i in range(100000)), "the script of a process that was killed")

    text = ("import functools, mtree, subprocess, sys\nsubprocess.run = functools.partial(subprocess.run, pass_fds=(int(sys.argv[1]),))\n"
            "index = mtree.Index('killed.mt')\nfor first in range(0, 100000, 20):\n"
            "    print(len(index.insert([[i, 3 * i] for i in range(first, first + 20)])), flush=True)\n")
    for delay, way in itertools.product((0.0, 0.05, 0.2), ("", BY_PROGRAM)):
        if os.path.exists("killed.mt"):
            os.remove("killed.mt")
        mtree.Index.create("killed.mt", metric="l1", dim=2).close()
        ending, held = os.pipe()
        child = python(way + text, str(held), pass_fds=(held,))
        os.close(held)
        child.stdout.readline()
        time.sleep(delay)
        child.kill()
        acknowledged = 20 * (1 + child.communicate()[0].count(b"\n"))
        os.read(ending, 1)  # until the program has ended too
        os.close(ending)
        same(run("audit", "killed.mt")[1][:6], "sound\n", "the audit after a process that was killed")
        with mtree.Index("killed.mt") as index:
            same(acknowledged <= len(index) <= acknowledged + 20, True, f"{acknowledged} acknowledged, {len(index)} there")
            same([hits[0][:2] for hits in index.nearest_of_each([[i, 3 * i] for i in range(len(index))], 1)], [(i, 0) for i in range(len(index))], "its rows")

    with mtree.Index("killed.mt") as index, by_program():
        before = len(index)
        with other_program("printf 'id 7\\nid 8\\nid 9'; echo 'mtree: killed.mt: the disk is full' >&2; exit 5\n"):
            try:
                same(index.insert([[1, 1]] * 5), "no answer", "a program that ended")
            except mtree.Stopped as stopped:
                same((stopped.row, stopped.ids, type(stopped.__cause__), "the disk is full; 2 of 5" in str(stopped)), (2, [7, 8], OSError, True), "what was acknowledged")
        with other_program("kill -9 $$\n"):
            raises(mtree.Error, lambda: index.insert([[1, 1]]), "a program that was killed", "signal 9")
            raises(mtree.Error, lambda: index.join(index, 1), "a program that was killed before it told a join", "signal 9")
        with other_program("printf 'refused number\\nfault damaged bad 3 kind\\n'; echo 'mtree: 1 of 2 commands were refused' >&2; exit 9\n"):
            raises(mtree.Damaged, lambda: index.insert([[1, 1]]), "a damaged page beside a refusal", "fault damaged bad 3 kind")
        with other_program("exit 8\n"):
            raises(MemoryError, lambda: index.insert([[1, 1]]), "a program without memory", "status 8")
        same(len(index), before, "objects after all this")


def both_ways(name):
    """What inserts and loads answer, with the bytes of the file after each."""
    told = []

    def ask(call):
        try:
            told.append(call())
        except Exception as error:
            told.append((type(error), getattr(error, "row", None), getattr(error, "ids", None), str(error).replace(name, "")))
        told.append(open(name, "rb").read())

    rows = points_of("l1", 300, 21)
    with mtree.Index.create(name, metric="l1", dim=6, max_objects=260) as index:
        ask(lambda: index.load(rows[:3] + [[1, 2]]))
        ask(lambda: index.load(rows[:150], range(7, 157)))
        ask(lambda: index.load(rows[:2]))
        ask(lambda: index.insert(rows[150:200]))
        ask(lambda: index.insert([[1] * 6, [1], [2] * 6, [3] * 7], [1 << 63, 5, 6, 7]))
        ask(lambda: index.insert(rows[200:]))
    for held in (b"", b"MTREEIDX", b"x" * 20000):
        with open(name, "wb") as file:
            file.write(held)
        with mtree.Index(name) as index:
            ask(lambda: index.insert(rows[:2]))
            ask(lambda: index.load(rows[:2]))
    with open("damaged.mt", "rb") as damaged, open(name, "wb") as file:
        file.write(damaged.read())
    with mtree.Index(name) as index:
        ask(lambda: index.insert([[1, 1], [2, 2]]))
    return told


@contextlib.contextmanager
def failing(number, is_torn):
    """The write or sync with this number fails, from 0. Half of such a write is done where `is_torn` is true."""
    kept, calls = (os.pwrite, os.fsync), itertools.count()

    def pwrite(handle, part, at):
        if next(calls) != number:
            return kept[0](handle, part, at)
        if is_torn:
            kept[0](handle, part[:len(part) // 2], at)
        raise OSError(28, "No space left on device")

    def fsync(handle):
        if next(calls) == number:
            raise OSError(5, "Input/output error")
        kept[1](handle)

    os.pwrite, os.fsync = pwrite, fsync
    try:
        yield
    finally:
        os.pwrite, os.fsync = kept


def compare_plans():
    """Inserts and loads by plans of the library, beside the program's, and where a write or a sync fails."""
    if not _plan.is_here():
        print("bindings: the library makes no plans here, so they are not tried")
        return
    planned = both_ways("planned.mt")
    with by_program():
        same(planned, both_ways("told.mt"), "plans beside the program")
    rows = points_of("l1", 50, 33)
    rows[43] = [1]
    mtree.Index.from_array("base.mt", rows[:40], metric="l1").close()
    with open("base.mt", "rb") as file:
        base = file.read()
    acknowledged, number = [], 0
    while number == 0 or acknowledged[-1] < 9:
        with open("failed.mt", "wb") as file:
            file.write(base)
        with mtree.Index("failed.mt") as index:
            with failing(number, number % 2 == 0):
                try:
                    same(index.insert(rows[40:]), "no answer", "rows, one refused")
                except mtree.Refused as refused:
                    ids = refused.ids
                except mtree.Stopped as stopped:
                    ids = stopped.ids
                    same((stopped.row, type(stopped.__cause__)), (len(ids) + (len(ids) > 2), OSError), f"the row at which {number} calls were done")
                except OSError as error:
                    ids = []
                    same("failed.mt" in str(error), True, f"the first insert: {error}")
            same(ids, list(range(40, 40 + len(ids))), f"what was acknowledged after {number} calls")
            same(0 <= len(index) - 40 - len(ids) <= 1, True, f"{len(index) - 40} rows after {number} calls, {len(ids)} acknowledged")
            there = [row for row in rows if len(row) == 6][:len(index)]
            same([hits[0][1] for hits in index.nearest_of_each(there, 1)], [0] * len(there), f"the rows after {number} calls")
        same(run("audit", "failed.mt")[0], 0, f"the audit after {number} calls")
        acknowledged.append(len(ids))
        number += 1
    same((acknowledged == sorted(acknowledged), set(acknowledged)), (True, set(range(10))), "how many were acknowledged")
    with mtree.Index("failed.mt") as index:
        with failing(2, True):
            raises(OSError, lambda: mtree.Index.create("none.mt", metric="l1", dim=1).load([[1]]), "a load that failed", "none.mt")
        with mtree.Index("failed.mt") as other, other._file.reading():
            raises(mtree.InUse, lambda: index.insert([[1] * 6]), "an insert beside a reader", "is in use")
            raises(mtree.InUse, lambda: index.load([[1] * 6]), "a load beside a reader", "is in use")
        same((len(index), index.insert([[1] * 6])), (49, [49]), "an insert after all this")


def compare_missing():
    """What is not there: the library, the program, or both."""
    with mtree.Index("points.mt") as index, without_library():
        for call in (index.audit, lambda: index.verify(b""), lambda: index.check(b""), lambda: index.nearest_with_log([1] * 6, 1),
                     lambda: index.range_with_log([1] * 6, 1), lambda: mtree.prove(b"", bytes(32))):
            raises(mtree.NoLibrary, call, "a call without the library", "bindings/build")
            raises(ImportError, call, "a call without the library, as an ImportError", "MTREE_LIBRARY")
    room = "alone"
    os.makedirs(f"{room}/mtree")
    for name in os.listdir(os.path.dirname(mtree.__file__)):
        if name.endswith(".py"):
            with open(os.path.join(os.path.dirname(mtree.__file__), name), "rb") as held, open(f"{room}/mtree/{name}", "wb") as file:
                file.write(held.read())
    others = {name: value for name, value in os.environ.items() if not name.startswith("MTREE_")}
    others.update(PYTHONPATH=os.path.abspath(room), PATH="/none", PYTHONDONTWRITEBYTECODE="1")

    def tell(text, **more):
        return python(text, env={**others, **more}).communicate()[0].decode().strip()

    words = tell("import mtree")
    same(("ImportError" in words, "bindings/build" in words, "./mtree" in words), (True, True, True), f"neither library nor program: {words}")
    words = tell("import mtree", MTREE_PROGRAM=PROGRAM, MTREE_LIBRARY="/none/libmtree.so")
    same("ImportError" in words and "/none/libmtree.so" in words, True, f"a library that is named and not there: {words}")
    text = "import mtree; print(mtree.Index('points.mt').nearest([1] * 6, 1)[0].id >= 0)"
    same(tell(text, MTREE_PROGRAM=PROGRAM), "True", "the program alone")
    if _library.is_here():
        library = _library.library._name
        same(tell(text, MTREE_LIBRARY=library), "True", "the library alone")
        words = tell(BY_PROGRAM + "import mtree; mtree.Index('points.mt').insert([[1] * 6])", MTREE_LIBRARY=library)
        same("FileNotFoundError" in words and "MTREE_PROGRAM" in words, True, f"an insert without the program: {words}")
        if _plan.is_here():
            same(tell("import mtree; print(mtree.Index('points.mt').insert([[1] * 6]))", MTREE_LIBRARY=library), "[80]", "an insert by the library alone")


def compare_silence():
    """Nothing is printed, whatever is called."""
    text = """
import sys, mtree
try:
    import numpy
except ImportError:
    numpy = None
with mtree.Index.from_array("silent.mt", [[1, 2], [3, 4], [5, 6]], metric="l1") as index:
    index.insert([[7, 8]]); index.nearest([1, 1], 2); index.range([1, 1], 9); index.kneighbors([[1, 1]], 2, n_jobs=2); list(index.iter_nearest([1, 1]))
    index.radius_neighbors([[1, 1]], 9, n_jobs=2); index.join(index, 3); index.shape(); index.seal(); index.carry(b""); len(index)
    for call in (lambda: index.insert([[1]]), lambda: index.load([[1, 1]]), lambda: index.nearest([1], 1), lambda: index.carry(b"1"), lambda: mtree.Index("none")):
        try:
            call()
        except (mtree.Error, OSError):
            pass
if numpy is not None:
    found = mtree.MTreeNeighbors(n_jobs=2).fit([[1, 2], [3, 4], [5, 6]])
    found.kneighbors(n_neighbors=2)
    found.fit([[1, 2], [3, 4]])
"""
    same(subprocess.run([sys.executable, "-X", "dev", "-c", text], stdout=subprocess.PIPE, stderr=subprocess.STDOUT).stdout, b"", "what is printed")


def compare_neighbors():
    """MTreeNeighbors, beside scikit-learn where it is there."""
    if numpy is None:
        raises(ImportError, lambda: mtree.MTreeNeighbors().fit([[1]]), "neighbours without numpy", "needs numpy")
        return
    kept = set(os.listdir(tempfile.gettempdir()))
    rows = numpy.array(points_of("l1", 120, 21))
    rows[50:58] = rows[50]  # more equal rows than are asked for
    asked = numpy.array(points_of("l1", 15, 22))
    near = numpy.abs(rows[:, None] - rows[None]).sum(2)
    model = mtree.MTreeNeighbors(n_neighbors=4, radius=12, metric="manhattan")
    raises(mtree.NotFitted, model.kneighbors, "before fit", "call fit first")
    raises(AttributeError, lambda: model.n_features_in_, "features before fit")
    same(model.fit(rows) is model, True, "fit")
    same((model.n_features_in_, model.n_samples_fit_, model.effective_metric_), (6, 120, "l1"), "what fit tells")
    wanted = [sorted((int(d), i) for i, d in enumerate(row) if i != number) for number, row in enumerate(near)]
    distances, ids = model.kneighbors()
    same([list(zip(*pair)) for pair in zip(distances.tolist(), ids.tolist())], [row[:4] for row in wanted], "each row's others")
    same(model.kneighbors(return_distance=False).tolist(), ids.tolist(), "their ids")
    same(model.kneighbors(n_neighbors=119)[1].tolist(), [[i for _, i in row] for row in wanted], "all others")
    found = model.radius_neighbors()
    same([list(zip(d.tolist(), i.tolist())) for d, i in zip(*found)], [[hit for hit in row if hit[0] <= 12] for row in wanted], "others within a radius")
    same(plain(model.radius_neighbors(asked, 9, return_distance=False)), [[i for d, i in sorted((l1(r, p), i) for i, r in enumerate(rows.tolist())) if d <= 9] for p in asked.tolist()],
         "ids within a radius")
    raises(ValueError, lambda: model.kneighbors(n_neighbors=120), "too many others", "n_neighbors is 120, and there are 119 other rows")
    raises(ValueError, lambda: model.kneighbors(asked, 121), "too many", "n_neighbors is 121, and there are 120 rows")
    raises(ValueError, lambda: model.kneighbors(asked[:, :5]), "other features", "X has 5 features, but MTreeNeighbors is expecting 6")
    raises(ValueError, lambda: model.kneighbors(asked[0]), "one point", "this one has 1")
    raises(ValueError, lambda: mtree.MTreeNeighbors().fit([]), "no rows", "has 1")
    raises(ValueError, lambda: mtree.MTreeNeighbors().fit(numpy.empty((0, 3))), "an empty array", "no rows")
    raises(ValueError, lambda: mtree.MTreeNeighbors(metric="cosine").fit(rows), "a metric that there is not", "cosine")
    raises(ValueError, lambda: model.set_params(leaf_size=3), "a parameter that there is not", "leaf_size")
    same(model.kneighbors(asked.tolist(), 4)[1].tolist(), model.kneighbors(asked.astype("f4"), 4)[1].tolist(), "lists and floats")
    again = pickle.loads(pickle.dumps(model))
    same((again.kneighbors()[1].tolist(), repr(again)), (ids.tolist(), repr(model)), "a model that was pickled")
    same(copy.deepcopy(mtree.MTreeNeighbors(n_neighbors=3)).get_params()["n_neighbors"], 3, "a copy before fit")
    same(mtree.MTreeNeighbors(n_neighbors=1, metric="chebyshev").fit(rows[:40]).kneighbors(asked)[0].ravel().tolist(),
         numpy.abs(asked[:, None] - rows[None, :40]).max(2).min(1).tolist(), "chebyshev")
    try:
        import scipy.sparse
    except ImportError:
        raises(ImportError, model.kneighbors_graph, "a graph without scipy", "needs scipy")
    else:
        graph = model.kneighbors_graph(mode="distance")
        same((graph.shape, graph.dtype, graph.nnz, scipy.sparse.issparse(graph)), ((120, 120), "float64", 480, True), "a graph")
        same((graph.data.tolist(), graph.indices.tolist()), (distances.ravel().tolist(), ids.ravel().tolist()), "its edges")
        raises(ValueError, lambda: model.kneighbors_graph(mode="other"), "a graph of another mode", "other")
        same(model.radius_neighbors_graph(asked, 0).nnz, int((numpy.abs(asked[:, None] - rows[None]).sum(2) == 0).sum()), "a graph within no radius")
        sys.modules["scipy.sparse"], held = None, sys.modules["scipy.sparse"]
        raises(ImportError, model.kneighbors_graph, "a graph where scipy is not", "needs scipy")
        sys.modules["scipy.sparse"] = held
    try:
        import sklearn.base
        from sklearn.cluster import DBSCAN
        from sklearn.neighbors import KNeighborsClassifier, NearestNeighbors
    except ImportError:
        print("bindings: there is no scikit-learn here, so MTreeNeighbors is not tried beside it")
    else:
        for metric in ("manhattan", "chebyshev"):
            mine, theirs = (kind(n_neighbors=7, radius=9.5, metric=metric).fit(rows) for kind in (mtree.MTreeNeighbors, NearestNeighbors))
            for X in (None, asked):
                same(mine.kneighbors(X)[0].tolist(), theirs.kneighbors(X)[0].tolist(), f"distances of {metric} beside scikit-learn")
                same([sorted(zip(d.tolist(), i.tolist())) for d, i in zip(*mine.radius_neighbors(X))],
                     [sorted(zip(d.tolist(), i.tolist())) for d, i in zip(*theirs.radius_neighbors(X))], f"radius of {metric} beside scikit-learn")
                for mode in ("connectivity", "distance"):
                    same((mine.radius_neighbors_graph(X, mode=mode) != theirs.radius_neighbors_graph(X, mode=mode)).nnz, 0, f"graph of {metric} beside scikit-learn")
                    same(mine.kneighbors_graph(X, mode=mode).sum(), theirs.kneighbors_graph(X, mode=mode).sum(), f"graph of neighbours of {metric}")
            same(DBSCAN(eps=9, metric="precomputed").fit(mine.radius_neighbors_graph(rows, 9, mode="distance")).labels_.tolist(),
                 DBSCAN(eps=9, metric=metric).fit(rows).labels_.tolist(), f"DBSCAN on the graph of {metric}")
        marks = rows[:, 0] > 10
        precomputed = KNeighborsClassifier(1, metric="precomputed").fit(model.kneighbors_graph(rows, 8, mode="distance"), marks)
        same(precomputed.predict(model.kneighbors_graph(rows[:40], 8, mode="distance")).tolist(), marks[:40].tolist(), "a classifier on the graph")
        same(repr(sklearn.base.clone(model)), repr(model), "a clone")
        sklearn.utils.validation.check_is_fitted(model)
        raises(sklearn.exceptions.NotFittedError, lambda: sklearn.utils.validation.check_is_fitted(sklearn.base.clone(model)), "a clone is not fitted")
        del mine, theirs
    first = model._index.path
    model.fit(rows[:10])
    same((os.path.exists(first), os.path.exists(model._index.path)), (False, True), "a second fit")
    del model, again
    same({name for name in set(os.listdir(tempfile.gettempdir())) - kept if name.startswith("mtree-")}, set(), "folders that were left")


def main():
    with open(os.path.join(HERE, "..", "..", "..", "VERSION")) as file:
        same(mtree.__version__, file.read().strip(), "the version")
    for part in (compare_metrics, compare_points, compare_arrays, compare_children, compare_threads, compare_processes, compare_plans, compare_missing,
                 compare_neighbors, compare_silence):
        part()
    return ended("the package")


if __name__ == "__main__":
    has_logs = _library.is_here() and "STANDIN" not in os.environ
    sys.exit(main())
