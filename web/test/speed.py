"""Measures the page beside the library for C: speed.py PROGRAM OUT LIBRARY, where web/build put the page into the folder OUT, and LIBRARY is
libmtree.so. Each time is the least of nine for carried logs and of forty else. Run it on a machine that has nothing else to do."""

import ctypes
import os
import pathlib
import random
import re
import subprocess
import sys
import tempfile
import time

import browser

PROGRAM, OUT, LIBRARY = (os.path.abspath(word) for word in sys.argv[1:4])
OBJECTS, DIM, QUERIES = 100_000, 8, 200
TIMES = {"audit": 40, "verify": 40, "prove": 9}
IDLE = "return document.getElementById('busy').hidden && !document.getElementById('prove').disabled"


def points():
    """Gives points around 200 centres, and one near each of some of them."""
    draw = random.Random(7)
    centres = [[draw.randrange(65536) for _ in range(DIM)] for _ in range(200)]

    def near(centre, spread):
        return [min(max(int(draw.gauss(place, spread)), 0), 2**32 - 1) for place in centre]

    rows = [near(draw.choice(centres), 600) for _ in range(OBJECTS)]
    return rows, [near(draw.choice(rows), 100) for _ in range(QUERIES)]


def make(room):
    """Makes an index, its digest, the logs of queries and the carried logs in the folder `room`."""
    rows, asked = points()
    path = lambda end: os.path.join(room, "speed" + end)
    run = lambda *words, text="": subprocess.run([PROGRAM, *words], input=text, capture_output=True, text=True, check=True).stdout
    run("create", path(".mt"), "--metric", "l1", "--dim", str(DIM))
    line = lambda row: ",".join(map(str, row)) + "\n"
    run("session", path(".mt"), text=f"load,{OBJECTS}\n" + "".join(map(line, rows)))
    run("batch", path(".mt"), "--log", path(".log"), text="".join("nearest,10," + line(row) for row in asked))
    digest = re.search(r"[0-9a-f]{64}", run("seal", path(".mt"))).group()
    run("proof", path(".mt"), "--log", path(".log"), "--proof", path(".carried"))
    return path, digest, asked


def least(call, count):
    times = []
    for _ in range(count):
        began = time.perf_counter()
        call()
        times.append((time.perf_counter() - began) * 1000)
    return min(times)


def native(path, digest):
    """Returns the least time of each judge in this process, in milliseconds."""
    library = ctypes.CDLL(LIBRARY)
    size, room = ctypes.c_size_t(), ctypes.create_string_buffer(1 << 24)
    text = (room, ctypes.c_size_t(len(room)), ctypes.byref(size))
    held = lambda end: (lambda raw: (raw, ctypes.c_size_t(len(raw))))(pathlib.Path(path(end)).read_bytes())
    file, logs, carried = held(".mt"), held(".log"), held(".carried")

    def judged(call, *words):
        status = call(*words, *text)
        assert status == 0, (call.__name__, status)

    return {
        "audit": least(lambda: judged(library.mtree_audit, *file), TIMES["audit"]),
        "verify": least(lambda: judged(library.mtree_verify, *file, *logs), TIMES["verify"]),
        "prove": least(lambda: judged(library.mtree_proof, *carried, bytes.fromhex(digest)), TIMES["prove"]),
    }


def milliseconds(text):
    """Reads the last time that a result tells, as the page writes it."""
    number, unit = re.findall(r"([\d.]+) (ms|s)\b", text)[-1]
    return float(number) * (1 if unit == "ms" else 1000)


def on_page(path, digest, asked):
    """Returns the least time of each judge, and of a query with its picture, as the page tells it."""
    found = {}
    with tempfile.TemporaryDirectory() as downloads:
        page = browser.Browser(downloads)
        try:
            page.go(pathlib.Path(OUT, "mtree.html").as_uri())
            page.wait("return document.documentElement.dataset.ready === 'yes'")
            print(page.text("state"))
            for id, end in (("index", ".mt"), ("logs", ".log"), ("carried", ".carried")):
                page.keys(id, path(end))
                page.wait(IDLE, seconds=120)
            page.fill("digest", digest)

            def press(button, result):
                page.click(button)
                page.wait(IDLE, seconds=120)
                return milliseconds(page.text(result))

            for button, result in (("audit", "auditResult"), ("verify", "logsResult"), ("prove", "proveResult")):
                found[button] = min(press(button, result) for _ in range(TIMES[button]))
            times = []
            for point in asked[:50]:
                page.fill("point", ",".join(map(str, point)))
                times.append(press("nearest", "askResult"))
            found["nearest, with its picture: middle of 50"] = sorted(times)[25]
        finally:
            page.close()
    return found


with tempfile.TemporaryDirectory() as room:
    path, digest, asked = make(room)
    sizes = {end: os.path.getsize(path(end)) for end in (".mt", ".log", ".carried")}
    print(f"{OBJECTS} objects, {sizes['.mt'] / 1e6:.1f} MB; {QUERIES} logs; {sizes['.carried'] / 1e6:.1f} MB of carried logs")
    here, there = native(path, digest), on_page(path, digest, asked)
    for what, took in there.items():
        beside = f", native {here[what]:.1f} ms, {took / here[what]:.2f} times" if what in here else ""
        print(f"{what}: page {took:.1f} ms{beside}")
