"""Measures queries from Python beside the program and beside scikit-learn's BallTree, scipy's cKDTree and faiss' flat index, in one run.

Use: speed.py [OBJECTS [QUERIES [DIM [CENTRES]]]], with numpy, and with MTREE_LIBRARY and MTREE_PROGRAM set or the package installed. Each time
is the least of three. Run it on a machine that has nothing else to do."""

import os
import resource
import subprocess
import sys
import tempfile
import time

import numpy

import mtree
from mtree import _program

OBJECTS, QUERIES, DIM, CENTRES = map(int, sys.argv[1:5] + ["100000", "10000", "8", "1000"][len(sys.argv) - 1 :])
COUNT, TIMES = 10, 3


def clustered(count, chance, centres):
    """Gives points near some of the centres."""
    near = centres[chance.integers(0, len(centres), count)] + chance.normal(0, 600, (count, DIM))
    return near.clip(0, 2**32 - 1).astype("u4")


def least(work, clock):
    times = []
    for _ in range(TIMES):
        began = clock()
        found = work()
        times.append(clock() - began)
    return min(times), found


def of_children():
    used = resource.getrusage(resource.RUSAGE_CHILDREN)
    return used.ru_utime + used.ru_stime


def main():
    chance = numpy.random.default_rng(7)
    centres = chance.integers(0, 65536, (CENTRES, DIM))
    rows, asked = clustered(OBJECTS, chance, centres), clustered(QUERIES, chance, centres)
    with tempfile.TemporaryDirectory() as room:
        path = os.path.join(room, "speed.mt")
        index = mtree.Index.from_array(path, rows, metric="l1", workers=4)
        script = "".join(f"nearest,{COUNT},{','.join(map(str, row))}\n" for row in asked.tolist()).encode()
        batch, _ = least(lambda: subprocess.run([_program.find(), "batch", path], input=script, stdout=subprocess.DEVNULL, check=True), of_children)
        one, (distances, ids) = least(lambda: index.kneighbors(asked, COUNT), time.process_time)
        clock_one, _ = least(lambda: index.kneighbors(asked, COUNT), time.perf_counter)
        clock_four, _ = least(lambda: index.kneighbors(asked, COUNT, n_jobs=4), time.perf_counter)
    print(f"{OBJECTS} clustered points of {DIM} numbers near {CENTRES} centres under l1, {QUERIES} queries for the {COUNT} nearest; seconds")
    print(f"batch, one worker, of the processor: {batch:.2f}")
    print(f"kneighbors, of the processor: {one:.2f}, {one / batch:.2f} times batch")
    print(f"kneighbors by the clock: {clock_one:.2f}; with n_jobs=4 {clock_four:.2f}, {clock_four / clock_one:.2f} of it")
    try:
        from scipy.spatial import cKDTree
        from sklearn.neighbors import BallTree
    except ImportError as reason:
        print(f"no peers: {reason}")
        return
    held, points = rows.astype("f8"), asked.astype("f8")
    ball, tree = BallTree(held, metric="manhattan"), cKDTree(held)
    for name, work in (("BallTree", lambda: ball.query(points, COUNT)[0]), ("cKDTree", lambda: tree.query(points, COUNT, p=1)[0])):
        took, found = least(work, time.process_time)
        print(f"{name}, of the processor: {took:.2f}; the same distances: {bool((found == distances).all())}")
    try:
        import faiss
    except ImportError as reason:
        print(f"no flat index: {reason}")
        return
    faiss.omp_set_num_threads(1)
    flat = faiss.IndexFlat(DIM, faiss.METRIC_L1)
    flat.add(rows.astype("f4"))
    took, found = least(lambda: flat.search(asked.astype("f4"), COUNT)[0], time.process_time)
    print(f"faiss' flat index, of the processor: {took:.2f}; the same distances: {bool((found == distances).all())}")


if __name__ == "__main__":
    main()
