"""Compares the page with the program: on_page.py PROGRAM OUT, where web/build put the page and its module into the folder OUT.

The module is compared in node, where node is there; the page is driven in headless Chromium, where it and its driver are there."""

import base64
import gzip
import hashlib
import http.server
import json
import os
import pathlib
import platform
import random
import shutil
import struct
import subprocess
import sys
import tempfile
import threading

import browser
import make_cases

PROGRAM, OUT = os.path.abspath(sys.argv[1]), os.path.abspath(sys.argv[2])
HERE = os.path.dirname(os.path.abspath(__file__))
METRICS = ["", "hamming", "l1", "max", "kendall", "hausdorff", "mixsum", "mixmax", "l1cap"]
IDLE = "return document.getElementById('busy').hidden && !document.getElementById('prove').disabled"
MODULES = {"module": "module.wasm", "wide": "wide.wasm"}
# The browser that is driven takes the wide module.
MODULE = '<script type="text/plain" id="wide" data-form="gzip, then base64">'
# It takes the plain one where it is told that its processor lacks what the other needs. Only one kind of processor can be told so.
NOT_WIDE = ["--js-flags=--no-enable-sse4-1"]
compared = failed = 0

# Does steps on the page in its own window: a file is given as its bytes, and what stands on the page is told after each press.
DRIVE = """
const [steps] = arguments, done = arguments[arguments.length - 1], $ = (id) => document.getElementById(id);
const pause = () => new Promise((next) => setTimeout(next, 0));
const idle = async () => { do await pause(); while ($('prove').disabled); };
(async () => {
    const told = [];
    for (const [what, id, value, place] of steps) {
        if (what === 'file') {
            const held = new DataTransfer();
            held.items.add(new File([Uint8Array.from(atob(value), (c) => c.charCodeAt(0))], place));
            $(id).files = held.files;
            $(id).dispatchEvent(new Event('change'));
        } else if (what === 'drop') {
            const held = new DataTransfer();
            held.items.add(new File([Uint8Array.from(atob(value), (c) => c.charCodeAt(0))], place));
            dispatchEvent(new DragEvent('drop', { dataTransfer: held, cancelable: true }));
            await new Promise((next) => setTimeout(next, 100));
        } else if (what === 'fill') $(id).value = value;
        else {
            if ($(id).disabled) { told.push({ off: true }); continue; }
            $(id).click();
        }
        await idle();
        if (what === 'drop') told.push({ all: $('about').textContent, logs: $('logs').files[0]?.name, carried: $('carried').files[0]?.name });
        if (what === 'press') told.push({ said: $(place).querySelector('pre.said')?.textContent ?? null, all: $(place).textContent, rows: [...$('answers').querySelectorAll('tbody tr')].map((row) => [...row.children].map((cell) => cell.textContent)) });
        if (what === 'file' && id === 'index') told.push({ all: $('about').textContent, facts: Object.fromEntries([...$('about').querySelectorAll('dl > div')].map((it) => [it.children[0].textContent, it.children[1].textContent])) });
    }
    return told;
})().then(done, (error) => done({ error: String(error.stack ?? error) }));
"""


def same(found, wanted, about):
    global compared, failed
    compared += 1
    if found != wanted:
        failed += 1
        if failed <= 20:
            print(f"page: {about}: {str(found)[:400]!r}, and not {str(wanted)[:400]!r}")


def holds(text, words, about):
    same(text if words not in text else words, words, about)


def spelled(data):
    return base64.b64encode(data).decode()


def drive(page, steps):
    told = page.run_async(DRIVE, steps)
    if "error" in told:
        raise RuntimeError(told["error"])
    return told


def facts_of(data):
    """What an index file says of itself."""
    slots = [struct.unpack(">QIIII", data[at + 8 : at + 32]) for at in (4096, 8192) if data[at] == 0xA5]
    generation, _, height, objects, pages = max(slots)
    return {"Metric": METRICS[data[10]], "Dimension": str(data[11]), "Objects": f"{objects:,}", "Pages": f"{pages:,}", "Height": str(height), "Generation": f"{generation:,}"}


def compare_judges(page, maker, count):
    """The page over the first cases, each set of a file, its logs and its carried logs."""
    sets = {}
    for case in maker.cases:
        sets.setdefault(case["about"], []).append(case)
    sets = {about: cases for about, cases in sets.items() if len(cases) >= 4 and cases[0]["call"] == "audit"}
    for about, cases in list(sets.items())[:count]:
        file = maker.read(cases[0]["file"])
        steps = [["file", "index", spelled(file), "given.mt"], ["press", "audit", None, "auditResult"], ["file", "logs", spelled(maker.read(cases[1]["logs"])), "given.log"],
                 ["press", "verify", None, "logsResult"], ["press", "check", None, "logsResult"], ["file", "carried", spelled(maker.read(cases[3]["logs"])), "given.proof"],
                 ["fill", "digest", cases[3]["root"]], ["press", "prove", None, "proveResult"]]
        opened, *told = drive(page, steps)
        if cases[0]["status"] == 6:
            holds(opened["all"], "no index", f"what {about} is")
            same([it.get("off") for it in told[:3]], [True] * 3, f"the judges of {about}, which is no index")
        else:
            same({name: opened["facts"].get(name) for name in facts_of(file)}, facts_of(file), f"what {about} is")
        for case, it in zip(cases[:4], told):
            if it.get("off"):
                continue
            same(it["said"], case["text"], f"{case['call']} of {about}")
            word = {0: {"audit": "✓ sound", "verify": "✓ accepted", "check": "✓ complete", "prove": "✓ proved"}[case["call"]], 1: "✗ rejected"}.get(case["status"])
            if word is not None:
                same(it["all"].startswith(word), True, f"the verdict of {case['call']} of {about}: {it['all'][:60]}")
        for case in cases[4:]:
            if cases[0]["status"] == 6 or case["call"] in ("stats", "dump", "show"):
                continue
            bound = "radius" if case["call"] == "range" else "count"
            told = drive(page, [["fill", "point", ", ".join(map(str, case["point"]))], ["fill", bound, case["bound"]], ["press", case["call"], None, "askResult"]])[0]
            if case["status"] != 0:
                holds(told["all"], "not done", f"{case['call']} of {about}, with the status {case['status']}")
                continue
            lines = case["text"].split("\n")[:-1]
            hits = [line.split() for line in lines[1:]][:1000]
            wanted = [[str(i + 1), id, apart] + ([tag] if len(told["rows"][0]) == 4 else []) for i, (id, tag, apart) in enumerate(hits)] if hits else []
            same(told["rows"], wanted, f"the answers to {case['call']} of {about}")
            if hits and len(told["rows"][0]) == 3:
                same(all(id == tag for id, tag, _ in (line.split() for line in lines[1:])), True, f"tags that are not shown of {about}")


def compare_reader(page, maker, whole, room):
    """What a reader does: chooses files, presses keys, saves a log, and shows a saved one."""
    for it in whole:
        data = maker.read(it["file"])
        page.keys("index", os.path.join(maker.folder, it["file"]))
        page.wait(IDLE)
        logs = b""
        for kind, bound, point in it["asked"]:
            page.fill("point", ",".join(map(str, point)))
            page.fill("radius" if kind == "range" else "count", str(bound))
            page.click(kind)
            page.wait(IDLE)
            saved = pathlib.Path(room, f"{kind}.log")
            saved.unlink(missing_ok=True)
            page.click("save")
            page.wait("return true")
            for _ in range(200):
                if saved.exists() and saved.stat().st_size > 0:
                    break
                page.run_async("setTimeout(arguments[0], 10)")
            logs += saved.read_bytes()
        same(logs, maker.read(it["name"] + ".log"), f"the saved logs of {it['name']}")
        compare_contents(page, maker, it, room)
        if facts_of(data)["Objects"] == "0":
            continue
        page.keys("logs", os.path.join(maker.folder, it["name"] + ".log"))
        for number in range(len(it["asked"])):
            page.fill("frame", str(number))
            page.click("show")
            page.wait(IDLE)
            holds(page.text("logsResult"), f"frame {number} accepted", f"a saved log of {it['name']}")
        page.run("document.getElementById('picture').focus()")
        page.wait("return document.getElementById('node').textContent.includes('Page ')")
        holds(page.text("node"), "A search always opens the root.", f"the root of {it['name']}")
        if facts_of(data)["Height"] != "0":
            page.keys("picture", "\ue015")
            holds(page.wait("const text = document.getElementById('node').textContent; return text.includes('in reach') && text"), "Centre (", f"the first child of {it['name']}")


def saved_file(page, place):
    """Waits until a file is saved whole."""
    size = -1
    for _ in range(300):
        now = place.stat().st_size if place.exists() else -1
        if now == size >= 0:
            return place.read_bytes()
        size = now
        page.run_async("setTimeout(arguments[0], 20)")
    return b""


def compare_contents(page, maker, it, room):
    """The levels, the saved objects, and the walk of the last query in words."""
    told = {call: maker.run(call, it["file"])[1] for call in ("stats", "dump")}
    levels = [line.split() for line in told["stats"].splitlines() if line.startswith("level ")]
    rows = page.run("return [...document.querySelectorAll('#about tbody tr')].map((row) => [...row.children].map((cell) => cell.textContent))")
    same([row[:2] for row in rows], [[words[1], f"{int(words[3]):,}"] for words in levels], f"the levels of {it['name']}")
    wanted = [[f"{int(word):,}" for word in words[5:] if word.isdigit()] for words in levels]
    same([[cell for cell in row[2:] if cell] for row in rows], wanted, f"the numbers of the levels of {it['name']}")
    place = pathlib.Path(room, it["file"] + ".script")
    place.unlink(missing_ok=True)
    page.click("dump")
    page.wait(IDLE)
    same(saved_file(page, place).decode(), told["dump"], f"the saved objects of {it['name']}")
    page.run("document.getElementById('words').open = true")
    found = page.wait("return document.querySelector('#words pre')?.textContent")
    log = pathlib.Path(room, it["asked"][-1][0] + ".log")
    same(found, maker.run("show", it["file"], "--log", str(log))[1], f"the walk in words on {it['name']}")


def compare_large(page, room):
    """An index that moves the module's memory while it is opened and judged, and carried logs that several workers judge."""
    path = os.path.join(room, "large.mt")
    run = lambda *words, given="": subprocess.run([PROGRAM, *words], input=given, stdout=subprocess.PIPE, stderr=subprocess.DEVNULL, text=True)
    run("gen", path, "--metric", "l1", "--dim", "8", "--count", "30000")
    page.keys("index", path)
    page.wait(IDLE)
    holds(page.text("about"), "30,000", "a large index")
    holds(page.text("about"), f"{int(run('stats', path).stdout.splitlines()[-1].split()[3]):,}", "the leaves of a large index")
    page.click("audit")
    page.wait(IDLE)
    holds(page.text("auditResult"), "sound", "the audit of a large index")
    page.click("nearest")
    page.wait(IDLE)
    holds(page.text("askResult"), "answers", "a query on a large index")
    compare_carried(page, run, *large_carried(run, path, room))


def large_carried(run, path, room):
    """Makes some 25 MB of carried logs of an index, and returns their place and the index's digest."""
    draw, logs, carried = random.Random(7), os.path.join(room, "large.log"), os.path.join(room, "large.proof")
    asked = [f"nearest,9,{','.join(str(draw.randrange(65536)) for _ in range(8))}\n" for _ in range(1000)]

    def carry(count):
        run("batch", path, "--log", logs, given="".join(asked[:count]))
        run("proof", path, "--log", logs, "--proof", carried)
        return os.path.getsize(carried)

    carry(max(6, min(25_000_000 // carry(1), 1000)))
    return pathlib.Path(carried), run("seal", path).stdout.split()[-1]


def compare_carried(page, run, place, root):
    """Large files of carried logs: whole, damaged, cut, with a wrong length, with something behind, and under another digest."""
    whole, draw = place.read_bytes(), random.Random(7)
    place.unlink()
    same(len(whole) > 1 << 24, True, "a large file of carried logs")
    starts, at = [], 0
    while at < len(whole):
        starts.append(at)
        at += 8 + int.from_bytes(whole[at : at + 8], "big")

    def flipped(*places):
        data = bytearray(whole)
        for it in places:
            data[it] ^= 1 << draw.randrange(8)
        return bytes(data)

    middle, other = starts[len(starts) // 2], root[:-1] + ("0" if root[-1] != "0" else "1")
    given = {
        "whole": whole, "under another digest": whole, "with bytes behind": whole + bytes(20), "cut at a frame": whole[:middle],
        "cut in a length": whole[: middle + 3], "cut in a frame": whole[: middle + 3000], "damaged": flipped(*(draw.randrange(len(whole)) for _ in range(5))),
        "with a wrong length": flipped(middle + 6), "with a huge length": flipped(middle), "with a wrong last length": flipped(starts[-1] + 5),
    }
    has_helpers = page.run("return navigator.hardwareConcurrency > 1")
    for what, data in given.items():
        digest = other if what == "under another digest" else root
        # (a browser does not say that a file of the same name was chosen again)
        place = place.with_name(f"{what}.proof")
        place.write_bytes(data)
        page.keys("carried", str(place))
        page.fill("digest", digest)
        page.click("prove")
        page.wait(IDLE, seconds=120)
        told = run("proof", "--log", str(place), "--root", digest)
        same("workers side by side" in page.text("proveResult"), has_helpers, f"how carried logs {what} are judged")
        same(page.run("return document.querySelector('#proveResult pre.said').textContent"), told.stdout, f"the lines of carried logs {what}")
        same(page.text("proveResult").startswith("✓ proved" if told.returncode == 0 else "✗ rejected"), True, f"the verdict of carried logs {what}")
        place.unlink()
    place.write_bytes(data)
    compare_alone(page, place, root, told)
    place.unlink()


def compare_alone(page, place, root, told):
    """Where a helper stops or refuses a portion, the whole file is judged by one call. `told` is what the program says of the file."""
    text, line = pathlib.Path(OUT, "mtree.html").read_text(), "script = URL.createObjectURL(new Blob([text]"
    same(text.count(line), 1, "the line of the page that names the script of helpers")
    for what, script in (("stops", "throw new Error('it stops');"), ("refuses", "onmessage = () => postMessage({ id: 0, fault: 'it refuses', status: -1 });")):
        changed = place.with_suffix(".html")
        changed.write_text(text.replace(line, line.replace("text", json.dumps(script))))
        page.go(changed.as_uri())
        page.wait("return document.documentElement.dataset.ready === 'yes'")
        page.keys("carried", str(place))
        page.fill("digest", root)
        page.click("prove")
        page.wait(IDLE, seconds=120)
        same("side by side" in page.text("proveResult"), False, f"how a file is judged where a helper {what}")
        same(page.run("return document.querySelector('#proveResult pre.said').textContent"), told.stdout, f"the lines of carried logs where a helper {what}")
    page.logs("browser")
    page.go(pathlib.Path(OUT, "mtree.html").as_uri())
    page.wait("return document.documentElement.dataset.ready === 'yes'")


def compare_plain(maker, room):
    """A browser that can't take the wide module takes the plain one, and judges as the program does."""
    if platform.machine() != "x86_64":
        print("page: only a browser on x86_64 can be told to do without SIMD, so the plain module is not tried in one")
        return
    page = browser.Browser(room, words=NOT_WIDE)
    try:
        page.go(pathlib.Path(OUT, "mtree.html").as_uri())
        page.wait("return document.documentElement.dataset.ready === 'yes'")
        compare_taken(page, "module", "plain")
        compare_judges(page, maker, 20)
        same([line["message"] for line in page.logs("browser")], [], "complaints of the browser that takes the plain module")
    finally:
        page.close()


def compare_taken(page, name, word):
    """The page says which module it took, and the digests of both."""
    holds(page.text("state"), f"The {word} module is ready ({os.path.getsize(os.path.join(OUT, MODULES[name])):,} bytes)", "the module that is taken")
    holds(page.text("taken"), f"took the {word} one", "the module that is taken")
    for id, file in (("sumOfModule", "module.wasm"), ("sumOfWide", "wide.wasm")):
        same(page.text(id), hashlib.sha256(pathlib.Path(OUT, file).read_bytes()).hexdigest(), f"the digest of {file}")


def compare_sentences(page, maker, whole):
    """Each bad input has its sentence."""
    first, root = whole[0], whole[0]["root"]
    carried, logs, file = (spelled(maker.read(first["name"] + end)) for end in (".proof", ".log", ".mt"))
    for digest, words in ((root[:63], "63 digits"), (root + "0", "65 digits"), ("", "Put in the digest"), ("g" + root[1:], "“g”")):
        holds(drive(page, [["file", "carried", carried, "a.proof"], ["fill", "digest", digest], ["press", "prove", None, "proveResult"]])[0]["all"], words, f"a digest {digest[:4]}..")
    told = drive(page, [["fill", "digest", " sealed " + root.upper() + " "], ["press", "prove", None, "proveResult"]])[0]
    holds(told["all"], "✓ proved", "a digest with its word, in capitals")
    other = ("1" if root[0] == "0" else "0") + root[1:]
    holds(drive(page, [["fill", "digest", other], ["press", "prove", None, "proveResult"]])[0]["all"], "is not the one that the digest stands for", "another digest")
    cut = spelled(maker.read(first["name"] + ".log")[:-1])
    told = drive(page, [["file", "index", file, "a.mt"], ["file", "logs", cut, "cut.log"], ["press", "verify", None, "logsResult"]])
    holds(told[-1]["all"], "Bytes are missing", "a log that is cut")
    for data, words in ((b"", "fewer than 12,288 bytes"), (b"no index" * 5000, "does not begin as an index"), (maker.read(first["file"])[:9000], "fewer than 12,288 bytes")):
        holds(drive(page, [["file", "index", spelled(data), "other.mt"]])[0]["all"], words, "a file that is no index")
    holds(drive(page, [["file", "index", logs, "a.log"]])[0]["all"], "This is a file of logs", "logs in place of an index")
    holds(drive(page, [["file", "index", carried, "a.proof"]])[0]["all"], "carried logs", "carried logs in place of an index")
    told = drive(page, [["drop", None, file, "dropped.mt"], ["drop", None, logs, "dropped.log"], ["drop", None, carried, "dropped.proof"]])
    holds(told[0]["all"], "dropped.mt", "an index that is dropped")
    same([told[1]["logs"], told[2]["carried"]], ["dropped.log", "dropped.proof"], "logs and carried logs that are dropped")
    for id, press, value, words in (("point", "nearest", "1, 2, x", "“x”"), ("point", "nearest", "1, 2", "has 2 numbers, and the index 1"), ("point", "range", "4294967296", "at most 4294967295"),
                                    ("count", "nearest", "0", "At least 1"), ("radius", "range", "-3", "whole number"), ("radius", "range", "1" + "0" * 20, "at most")):
        given = [["file", "index", file, "a.mt"], ["fill", "point", "5"], ["fill", "count", "3"], ["fill", "radius", "3"], ["fill", id, value], ["press", press, None, "askResult"]]
        holds(drive(page, given)[-1]["all"], words, f"{id} {value}")


def other_module():
    """A module in which `audit` never ends and `check` traps, and all else says 0 and nothing."""
    def part(number, *items):
        body = bytes([len(items)]) + b"".join(items)
        # (the length in two bytes of seven bits, the lower ones first)
        return bytes([number, len(body) & 127 | 128, len(body) >> 7]) + body

    def code(*words):
        body = bytes([0, *words, 0x0B])
        return bytes([len(body)]) + body

    names = ["page_take", "page_give", "mtree_range", "mtree_nearest", "mtree_verify", "mtree_proof", "mtree_audit", "mtree_check", "mtree_stats"]
    exports = [bytes([len(name)]) + name.encode() + bytes([0, i]) for i, name in enumerate(names)]
    body = part(7, *exports, b"\x06memory\x02\x00")
    none = code(0x41, 0)
    codes = [code(0x23, 0, 0x23, 0, 0x20, 0, 0x7C, 0x24, 0), code(), none, none, none, none, code(0x03, 0x7F, 0x0C, 0, 0x0B), code(0), none]
    return b"\0asm\1\0\0\0" + b"".join((part(1, b"\x60\1\x7e\1\x7e", b"\x60\1\x7e\0", b"\x60\0\1\x7f"), part(3, *(bytes([it]) for it in (0, 1, 2, 2, 2, 2, 2, 2, 2))), part(5, b"\0\x40"),
                                        part(6, b"\x7e\1\x42\x80\x08\x0b"), body, part(10, *codes)))


def compare_stops(page, maker, whole, room):
    """A trap of the module, and a job that is stopped, on a page with a module that does both."""
    text, module = pathlib.Path(OUT, "mtree.html").read_text(), other_module()
    before, rest = text.split(MODULE, 1)
    old_sum = hashlib.sha256(gzip.decompress(base64.b64decode(rest.split("</script>", 1)[0]))).hexdigest()
    changed = before + MODULE + "\n" + spelled(gzip.compress(module)) + "\n</script>" + rest.split("</script>", 1)[1]
    place = pathlib.Path(room, "damaged.html")
    place.write_text(changed)
    page.go(place.as_uri())
    holds(page.wait("const text = document.getElementById('state').textContent; return /damaged|ready/.test(text) && text"), "damaged", "a page whose module is another one")
    same(page.run("return document.getElementById('prove').disabled"), True, "a damaged page judges nothing")
    place.write_text(changed.replace(old_sum, hashlib.sha256(module).hexdigest()))
    page.go(place.as_uri())
    page.wait("return document.documentElement.dataset.ready === 'yes'")
    file, logs = (spelled(maker.read(whole[0]["name"] + end)) for end in (".mt", ".log"))
    told = drive(page, [["file", "index", file, "a.mt"], ["file", "logs", logs, "a.log"], ["press", "check", None, "logsResult"], ["press", "verify", None, "logsResult"], ["press", "check", None, "logsResult"]])
    for number in (1, 3):
        holds(told[number]["all"], "The module stopped", "a trap")
        holds(told[number]["all"], "a new one was made, and the index was read into it again", "a trap")
    holds(told[2]["all"], "✓ accepted", "a call after a trap")
    page.run("document.getElementById('audit').click()")
    page.wait("return !document.getElementById('busy').hidden")
    page.fill("digest", "the page takes input meanwhile")
    page.click("stop")
    holds(page.wait("return document.getElementById('auditResult').textContent"), "You stopped it", "a job that is stopped")
    page.wait(IDLE)
    holds(drive(page, [["press", "verify", None, "logsResult"]])[0]["all"], "✓ accepted", "a call after a stop")


def compare_requests(page):
    """No request leaves the page, and its own policy refuses one that is tried."""
    asked = []

    class Listener(http.server.BaseHTTPRequestHandler):
        def do_GET(self):
            asked.append(self.path)

        def log_message(self, *_):
            pass

    server = http.server.HTTPServer(("127.0.0.1", 0), Listener)
    threading.Thread(target=server.serve_forever, daemon=True).start()
    place = f"http://127.0.0.1:{server.server_port}/"
    told = page.run_async("""const [place, done] = arguments, seen = [];
        addEventListener('securitypolicyviolation', (event) => seen.push(event.effectiveDirective));
        const image = new Image();
        image.src = place + 'image';
        fetch(place + 'fetch').then(() => 'came', () => 'refused').then((how) => setTimeout(() => done([how, ...seen.sort()]), 200));""", place)
    same(told, ["refused", "connect-src", "img-src"], "requests that are tried")
    same(asked, [], "requests that came")
    server.shutdown()


def requests_of(page):
    found = []
    for line in page.logs("performance"):
        message = json.loads(line["message"])["message"]
        if message["method"] == "Network.requestWillBeSent":
            found.append(message["params"]["request"]["url"])
    return found


def main():
    node = shutil.which("node")
    has_browser = browser.CHROMIUM is not None and browser.DRIVER is not None
    if not has_browser:
        print("page: Chromium or its driver is not here (the Debian packages chromium and chromium-driver), so the page is not driven")
    if node is None:
        print("page: there is no node here, so the module is not compared by itself")
    if not has_browser and node is None:
        return 0
    with tempfile.TemporaryDirectory() as room:
        folder = os.path.join(room, "cases")
        os.mkdir(folder)
        maker, whole = make_cases.make(PROGRAM, folder, 400)
        for name in MODULES.values() if node is not None else ():
            if subprocess.run([node, os.path.join(HERE, "compare.mjs"), os.path.join(OUT, name), folder]).returncode != 0:
                return 1
        if not has_browser:
            return 0
        page = browser.Browser(room)
        try:
            page.go(pathlib.Path(OUT, "mtree.html").as_uri())
            page.wait("return document.documentElement.dataset.ready === 'yes'")
            compare_taken(page, "wide", "wide")
            compare_judges(page, maker, 80)
            compare_sentences(page, maker, whole)
            compare_reader(page, maker, whole, room)
            compare_large(page, room)
            compare_stops(page, maker, whole, room)
            requests = requests_of(page)
            same([url for url in requests if not url.startswith(("file:", "blob:", "data:"))], [], "requests of the page")
            same([line["message"] for line in page.logs("browser")], [], "complaints of the browser")
            compare_requests(page)
        finally:
            page.close()
        compare_plain(maker, room)
        print(f"page: {compared} comparisons of the page with the program in Chromium {page.version}, {failed} failed; {len(requests)} requests, and none left it")
        return 1 if failed else 0


if __name__ == "__main__":
    sys.exit(main())
