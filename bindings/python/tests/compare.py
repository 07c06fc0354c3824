"""Compares what the library answers, from Python and from C, with what the program writes, and with a plain scan.

Use: compare.py PROGRAM EXAMPLE, in an empty folder, where EXAMPLE is bindings/c/example.c, built."""

import array
import ctypes
import fcntl
import os
import subprocess
import sys

import mtree
from mtree import _library
from trying import PROGRAM, ended, raises, run, same, told

EXAMPLE = sys.argv[2]


def reply(hits):
    return f"hits {len(hits)}\n" + "".join(f"{hit.id} {hit.tag} {hit.distance}\n" for hit in hits)


def queries(dim, most, count):
    """Yields `count` queries at points below `most`, as lines and as calls."""
    seed = 12345
    for number in range(count):
        point = []
        for _ in range(dim):
            seed = (seed * 1103515245 + 12345) % (1 << 31)
            point.append(seed // 8 % most)
        if number % 2 == 0:
            yield "range", most // 4 * dim, point
        else:
            yield "nearest", number % 23 + 1, point


def ask(index, kind, bound, point):
    return index.range(point, bound) if kind == "range" else index.nearest(point, bound)


def lines(asked):
    return "".join(f"{kind},{bound},{','.join(map(str, point))}\n" for kind, bound, point in asked)


def compare_file(name, dim, most):
    """Compares every call on a sound file."""
    asked = list(queries(dim, most, 60))
    status, text = run("batch", name, "--tags", "show", "--log", "program.log", given=lines(asked))
    same(status, 0, f"batch {name}")
    logs = open("program.log", "rb").read()
    with mtree.Index(name) as index:
        same("".join(reply(ask(index, *one)) for one in asked), text, f"answers of {name}")
        frames = [(index.range_with_log if kind == "range" else index.nearest_with_log)(point, bound)[1] for kind, bound, point in asked]
        same(b"".join(frames), logs, f"logs of {name}")
        points = [point for kind, bound, point in asked]
        same(index.nearest_of_each(points, 5, threads=4), [index.nearest(point, 5) for point in points], f"threads on {name}")
        arrays = [array.array("I", point) for point in points]
        same(index.nearest_of_each(arrays, 5), index.nearest_of_each(points, 5), f"arrays on {name}")
        wrong = bytearray(logs)
        wrong[-1] ^= 1
        for given in (logs, bytes(wrong), logs[:-1], b""):
            open("given.log", "wb").write(given)
            same(told(index.verify(given)), run("verify", name, "--log", "given.log"), f"verify {name}")
            same(told(index.check(given)), run("check", name, "--log", "given.log"), f"check {name}")
        same(told(index.audit()), run("audit", name), f"audit {name}")
        root = run("seal", name)[1].split()[-1]
        run("proof", name, "--log", "program.log", "--proof", "carried.log")
        carried = open("carried.log", "rb").read()
        wrong = bytearray(carried)
        wrong[len(wrong) // 2] ^= 1
        for given in (carried, bytes(wrong), carried[:-1], b""):
            open("given.log", "wb").write(given)
            same(told(mtree.prove(given, bytes.fromhex(root))), run("proof", "--log", "given.log", "--root", root), f"proof of {name}")
        for unfit in ([0] * (dim + 1), [], [-1] * dim, [1 << 32] * dim):
            try:
                same(index.nearest(unfit, 1), "no answer", f"a point that is none, on {name}")
            except mtree.NoQuery:
                same(0, 0, "")
        try:
            same(index.nearest([0] * dim, 0), "no answer", f"none of the nearest, on {name}")
        except mtree.NoQuery:
            same(0, 0, "")
    hidden = run("batch", name, given=lines(asked))[1]
    found = subprocess.run([EXAMPLE, name], input=lines(asked).encode(), stdout=subprocess.PIPE)
    same((found.returncode, found.stdout.decode()), (0, hidden), f"the example in C on {name}")


def compare_arguments(name, dim):
    """Compares what a caller may hand in, and what is refused in words."""
    with mtree.Index(name) as index:
        point = list(range(dim))
        wanted = index.nearest(point, 3)
        same(index.nearest((c for c in point), 3), wanted, "a point that is an iterator")
        same(index.nearest([float(c) for c in point], 3), wanted, "floats that are whole")
        same(index.range(point, 9.5), index.range(point, 9), "a radius with a fraction")
        same(len(index.range(point, float("inf"))), len(index.range(point, 1 << 63)), "an infinite radius")
        raises(mtree.NoQuery, lambda: index.nearest((c for c in [-1] * dim), 3), "an iterator of negative numbers")
        raises(mtree.NoQuery, lambda: index.nearest([0.5] * dim, 3), "floats that are not whole", "0.5")
        raises(mtree.NoQuery, lambda: index.nearest(["a"] * dim, 3), "words", "'a'")
        raises(mtree.NoQuery, lambda: index.nearest(point + [1], 3), "a point too long", f"has {dim + 1} numbers, the index {dim}")
        raises(mtree.NoQuery, lambda: index.nearest(point, 0), "none of the nearest", "at least 1")
        raises(mtree.NoQuery, lambda: index.nearest(point, 2.7), "a count with a fraction", "2.7")
        raises(mtree.NoQuery, lambda: index.range(point, float("nan")), "a radius that is no number", "nan")
        raises(mtree.NoQuery, lambda: index.range(point, -1), "a negative radius", "-1")
        log = index.nearest_with_log(point, 3)[1]
        for held in (bytearray(log), memoryview(log), array.array("B", log)):
            same(told(index.verify(held)), told(index.verify(log)), f"a log as {type(held).__name__}")
        raises(TypeError, lambda: index.verify("abc"), "a log that is a text")
        raises(TypeError, lambda: mtree.prove(3, bytes(32)), "a carried log that is a number")
    raises(ValueError, lambda: index.nearest(point, 3), "a closed index", "is closed")


def compare_changes(name):
    """Compares an index that another process writes, between the calls and while they run."""
    run("create", name, "--metric", "l1", "--dim", "1")
    with mtree.Index(name) as index:
        same(index.range([0], 1 << 40), [], "an empty index")
        for round in range(6):
            run("session", name, given="".join(f"insert,{round * 50 + i}\n" for i in range(50)))
            same(len(index.range([0], 1 << 40)), (round + 1) * 50, f"after {(round + 1) * 50} inserts of another process")
        holder = open(name, "rb")
        fcntl.flock(holder, fcntl.LOCK_EX)
        raises(mtree.InUse, lambda: index.nearest([0], 1), "an index that another process writes", "another process writes it")
        holder.close()
        same(len(index.nearest([0], 7)), 7, "after the writer has gone")
        fcntl.flock(open(name, "rb"), fcntl.LOCK_EX | fcntl.LOCK_NB)
        session = subprocess.Popen([PROGRAM, "session", name], stdin=subprocess.PIPE, stdout=subprocess.DEVNULL, stderr=subprocess.DEVNULL)
        session.stdin.write("".join(f"insert,{i}\n" for i in range(300)).encode())
        session.stdin.close()
        while session.poll() is None:
            try:
                same(len(index.range([0], 1 << 40)) in (300, 600), True, "beside a session that inserts")
            except mtree.InUse:
                pass
        same(len(index.range([0], 1 << 40)) in (300, 600), True, "after a session that inserts")


def compare_writing():
    """Compares an index that is made and filled from Python with the file that the program makes of the same rows."""
    rows = [[(7 * i) % 256, (i * i) % 256, 255 - i % 256] for i in range(300)]
    tags = [1000 + i for i in range(300)]
    run("create", "script.mt", "--metric", "l1", "--dim", "3")
    run("session", "script.mt", given="tload,300\n" + "".join(f"{tag},{','.join(map(str, row))}\n" for tag, row in zip(tags, rows)))
    run("session", "script.mt", given="".join(f"insert,{i},{i},{i}\n" for i in range(40)))
    with mtree.Index.from_array("made.mt", rows, metric="l1", tags=tags) as index:
        same((index.metric, index.dim, index.max_objects, len(index)), ("l1", 3, 16777216, 300), "what an index tells of itself")
        same(index.insert([[i, i, i] for i in range(40)]), list(range(300, 340)), "ids of inserts")
        same(open("made.mt", "rb").read(), open("script.mt", "rb").read(), "a file that was made from Python")
        same(index.nearest([7, 1, 254], 1), [mtree.Hit(1, 0, 1001)], "a row with its tag")
        raises(mtree.NoQuery, lambda: index.insert([[1, 2, 0.5]]), "an insert of a fraction", "0.5")
        raises(ValueError, lambda: index.insert([[1, 2, 3]], tags=[1, 2]), "two tags for one row", "2 tags for 1 rows")
        try:
            same(index.insert([[1, 1, 1], [1, 1], [2, 2, 2]]), "no answer", "a row of another dimension")
        except mtree.Refused as refused:
            same((refused.row, refused.ids), (1, [340, 341]), "the row that was refused, and those that were added")
        raises(mtree.Refused, lambda: index.load(rows), "a load into an index that holds objects", "notempty")
        held = open("made.mt", "rb")
        fcntl.flock(held, fcntl.LOCK_SH)
        raises(mtree.InUse, lambda: index.insert([[1, 1, 1]]), "an insert beside a reader", "is in use")
        held.close()
        same(len(index), 342, "the objects after all this")
    raises(mtree.NoIndex, lambda: mtree.Index.create("made.mt", metric="l1", dim=3), "a file that holds an index", "notempty")
    raises(ValueError, lambda: mtree.Index.create("other.mt", metric="l2", dim=3), "a metric that there is not", "l2")
    raises(FileNotFoundError, lambda: mtree.Index("missing.mt"), "a file that there is not")
    child = subprocess.Popen([PROGRAM, "session", "made.mt"], stdin=subprocess.PIPE, stdout=subprocess.PIPE, stderr=subprocess.DEVNULL)
    child.stdin.write(b"insert,1,2,3\n" * 2000)
    child.stdin.close()
    acknowledged = [child.stdout.readline() for _ in range(30)]
    child.kill()
    acknowledged += child.stdout.readlines()
    child.wait()
    whole = sum(line.startswith(b"id ") and line.endswith(b"\n") for line in acknowledged)
    with mtree.Index("made.mt") as index:
        same(index.audit().accepted and whole <= len(index) - 342 <= whole + 1, True, f"{whole} acknowledged inserts of a process that was killed")


def compare_arrays(name, dim):
    """Compares answers as arrays, where numpy is there: each integer type and order, and what has no answer."""
    try:
        import numpy
    except ImportError:
        print("bindings: there is no numpy here, so arrays of it are not tried")
        return
    points = [[(i * (j + 3) * 7919) % 4 for j in range(dim)] for i in range(20)]
    with mtree.Index(name) as index:
        wanted = [index.nearest(point, 4) for point in points]
        for kind in (numpy.uint8, numpy.int16, numpy.int32, numpy.uint32, numpy.int64, numpy.uint64, numpy.float64):
            for order in ("C", "F"):
                array = numpy.array(points, kind, order=order)
                distances, ids, tags = index.kneighbors(array, 4, return_tags=True, n_jobs=2)
                same(([[hit[1] for hit in hits] for hits in wanted], [[hit[0] for hit in hits] for hits in wanted]),
                     (distances.tolist(), ids.tolist()), f"kneighbors of {kind.__name__} in order {order}")
                same((distances.dtype, ids.dtype, tags.tolist()), (numpy.int64, numpy.int64, [[hit[2] for hit in hits] for hits in wanted]), "types")
        distances, ids = index.radius_neighbors(numpy.array(points), 5)
        same([list(zip(i.tolist(), d.tolist())) for i, d in zip(ids, distances)], [[hit[:2] for hit in index.range(point, 5)] for point in points], "radius_neighbors")
        same(index.kneighbors(numpy.array(points), 4, return_distance=False).shape, (20, 4), "ids alone")
        same(index.kneighbors(numpy.empty((0, dim), int), 4)[0].shape, (0, 4), "no points")
        raises(ValueError, lambda: index.kneighbors(points, 1000000), "more neighbours than objects", "1000000")
        raises(mtree.NoQuery, lambda: index.nearest(numpy.array(points), 4), "an array of two dimensions as one point", "2")


def compare_scan(name, dim, count):
    """Compares a thousand queries with a plain scan of the generated rows, under L1."""
    rows = [[((i + 1) * (2 * j + 3) * 40503) % 65536 for j in range(dim)] for i in range(count)]
    with mtree.Index(name) as index:
        for kind, bound, point in queries(dim, 65536, 1000):
            near = sorted((sum(abs(a - b) for a, b in zip(row, point)), id) for id, row in enumerate(rows))
            wanted = [mtree.Hit(id, d, id) for d, id in near if d <= bound] if kind == "range" else [mtree.Hit(id, d, id) for d, id in near[:bound]]
            same(ask(index, kind, bound, point), wanted, f"{kind} {bound} {point} on {name}")


def compare_rooms(name, dim):
    """Tries buffers of every size around the needed one: what is told, and that nothing else is written."""
    file = open(name, "rb").read()
    point = (ctypes.c_uint32 * dim)(*[7] * dim)
    library = _library.library
    for log_wanted in (0, 1):
        needed = _library.CSizes()
        status = library.mtree_nearest(file, len(file), point, dim, 3, None, 0, bytes(log_wanted), log_wanted, ctypes.byref(needed))
        same((status, needed.hits), (4, 3), f"no room at all, on {name}")
        for hits_room in range(needed.hits + 2):
            for log_room in {0, 1, needed.log - 1, needed.log, needed.log + 1} if log_wanted else {0}:
                if log_wanted and log_room <= 0:
                    continue
                hits, log, sizes = (_library.CHit * (hits_room + 1))(), (ctypes.c_uint8 * (log_room + 1))(), _library.CSizes()
                ctypes.memset(hits, 0x55, ctypes.sizeof(hits))
                ctypes.memset(log, 0x55, ctypes.sizeof(log))
                status = library.mtree_nearest(file, len(file), point, dim, 3, hits, hits_room, log, log_room, ctypes.byref(sizes))
                fits = hits_room >= needed.hits and log_room >= needed.log
                same((status, sizes.hits, sizes.log), (0 if fits else 4, needed.hits, needed.log), f"rooms {hits_room} {log_room}")
                first = needed.hits if fits else 0
                same(set(bytes(hits)[first * ctypes.sizeof(_library.CHit):]), {0x55}, f"behind the hits {hits_room} {log_room}")
                same(set(bytes(log)[needed.log if fits else 0:]), {0x55}, f"behind the log {hits_room} {log_room}")
    wanted = run("audit", name)[1].encode()
    for room in range(len(wanted) + 3):
        text, size = (ctypes.c_uint8 * (room + 1))(), ctypes.c_size_t()
        ctypes.memset(text, 0x55, room + 1)
        status = library.mtree_audit(file, len(file), text, room, ctypes.byref(size))
        whole = wanted if room >= len(wanted) else b""
        same((status, size.value, bytes(text)), (0 if whole else 4, len(wanted), whole.ljust(room + 1, b"\x55")), f"text room {room}")


def compare_damage(name, dim):
    """Compares a file that is cut short at each page, an empty one, and one with a page that holds no node."""
    file = open(name, "rb").read()
    cases = [file[:size] for size in range(0, len(file), 4096)]
    cases += [file[:page] + b"\x0f" + file[page + 1:] for page in range(3 * 4096, len(file), 4096)]
    for case in cases:
        open("damaged.mt", "wb").write(case)
        status, text = run("audit", "damaged.mt")
        with mtree.Index("damaged.mt") as index:
            try:
                same(told(index.audit()), (status, text), "audit of a damaged file")
            except mtree.NoIndex as error:
                same((6, f"{error}\n"), (status, text), "audit of what is no index")
            line = f"range,{1 << 63},{','.join(['7'] * dim)}\n"
            asked, answer = run("batch", "damaged.mt", "--tags", "show", given=line)
            try:
                same((0, reply(index.range([7] * dim, 1 << 63))), (asked, answer), "a query on a damaged file")
            except mtree.NoIndex as error:
                same((6, f"{error}\n"), (asked, answer), "a query on what is no index")
            except mtree.Damaged:
                same(9, asked, "a query that comes to a damaged page")


def main():
    files = [("line.mt", "l1", 1, 4, 65536), ("wide.mt", "max", 5, 300, 65536), ("many.mt", "l1", 3, 3000, 65536), ("words.mt", "hamming", 8, 50, 4)]
    for name, metric, dim, count, most in files:
        same(run("gen", name, "--metric", metric, "--dim", str(dim), "--count", str(count))[0], 0, f"gen {name}")
        compare_file(name, dim, most)
    run("create", "tags.mt", "--metric", "l1", "--dim", "2")
    run("session", "tags.mt", given="".join(f"tinsert,{900 - i},{i * i % 17},{i}\n" for i in range(40)))
    compare_file("tags.mt", 2, 20)
    run("create", "empty.mt", "--metric", "mixsum", "--dim", "4")
    compare_file("empty.mt", 4, 20)
    compare_scan("many.mt", 3, 3000)
    compare_rooms("wide.mt", 5)
    compare_arguments("wide.mt", 5)
    compare_changes("changing.mt")
    compare_arrays("words.mt", 8)
    compare_writing()
    compare_damage("tags.mt", 2)
    return ended("the library")


if __name__ == "__main__":
    os.environ.setdefault("PYTHONHASHSEED", "0")
    sys.exit(main())
