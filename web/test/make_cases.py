"""Makes files and what the program says of them: whole and damaged indexes, logs and carried logs."""

import hashlib
import json
import os
import random
import subprocess

# Each file: its name, its metric, its dimension, the bound of its points, and how many rows `gen` makes, or a script.
SETS = "".join(f"insert,{','.join(str(min(i * (j + 1) % 97 + 30 * j, 30 * j + 29)) for j in range(4))}\n" for i in range(60))
RANKINGS = "".join(f"insert,{','.join(str((j * (i % 4 + 1) + i) % 5) for j in range(5))}\n" for i in range(60))
TAGS = "".join(f"tinsert,{900 - i},{i * i % 17},{i}\n" for i in range(40))
FILES = [
    ("line", "l1", 1, 65536, 4), ("wide", "max", 5, 65536, 300), ("many", "l1", 3, 65536, 3000), ("words", "hamming", 8, 4, 50), ("capped", "l1cap", 4, 65536, 200),
    ("sum", "mixsum", 4, 65536, 200), ("most", "mixmax", 6, 65536, 200), ("empty", "mixsum", 4, 20, ""), ("tags", "l1", 2, 20, TAGS), ("sets", "hausdorff", 4, 120, SETS),
    ("rankings", "kendall", 5, 5, RANKINGS),
]


class Maker:
    """Holds the cases, and the files by their digests, in one folder."""

    def __init__(self, program, folder):
        self.program, self.folder, self.cases, self.draw = program, folder, [], random.Random(7)

    def run(self, *words, given=""):
        done = subprocess.run([self.program, *words], input=given.encode(), stdout=subprocess.PIPE, stderr=subprocess.DEVNULL, cwd=self.folder)
        return done.returncode, done.stdout.decode()

    def read(self, name):
        with open(os.path.join(self.folder, name), "rb") as file:
            return file.read()

    def keep(self, data):
        name = hashlib.sha256(data).hexdigest()[:20]
        with open(os.path.join(self.folder, name), "wb") as file:
            file.write(data)
        return name

    def add(self, call, about, told, **more):
        self.cases.append({"call": call, "about": about, "status": told[0], "text": told[1], **more})

    def point(self, dim, most, metric):
        if metric == "kendall":
            return self.draw.sample(range(dim), dim)
        if metric == "hausdorff":
            return sorted(self.draw.sample(range(most), dim))
        return [self.draw.randrange(most) for _ in range(dim)]

    def judge(self, about, file, logs, carried, root):
        """What each judge of the program says."""
        file, logs, carried = self.keep(file), self.keep(logs), self.keep(carried)
        self.add("audit", about, self.run("audit", file), file=file)
        self.add("verify", about, self.run("verify", file, "--log", logs), file=file, logs=logs)
        self.add("check", about, self.run("check", file, "--log", logs), file=file, logs=logs)
        self.add("prove", about, self.run("proof", "--log", carried, "--root", root), logs=carried, root=root)

    def tell(self, about, file, logs):
        """What the program says of what a file holds and of what logs tell."""
        file, logs = self.keep(file), self.keep(logs)
        self.add("stats", about, self.run("stats", file), file=file)
        self.add("dump", about, self.run("dump", file), file=file)
        self.add("show", about, self.run("show", file, "--log", logs), file=file, logs=logs)

    def ask(self, about, file, kind, bound, point, is_whole):
        """What the program answers to a query, and its log. A refused one has the status 2 of the module."""
        file = self.keep(file)
        status, text = self.run("batch", file, "--tags", "show", "--log", "asked.log", given=f"{kind},{bound},{','.join(map(str, point))}\n")
        if text.startswith("refused"):
            status = 2
        more = {"log": hashlib.sha256(self.read("asked.log")).hexdigest()} if status == 0 else {}
        self.add(kind, about, (status, text if status == 0 else None), file=file, point=point, bound=str(bound), isWhole=is_whole, **more)

    def damaged(self, data):
        draw, data = self.draw, bytearray(data)
        how, pages = draw.randrange(8), len(data) // 4096
        if not data:
            return bytes(data)
        if how == 0:
            return bytes(data[: draw.randrange(len(data))])
        if how == 1 and pages > 3:  # a page of another place
            a, b = draw.randrange(pages), draw.randrange(pages)
            data[a * 4096 : a * 4096 + 4096] = data[b * 4096 : b * 4096 + 4096]
        elif how == 2 and pages > 4:  # a field of a node
            at = draw.randrange(3, pages) * 4096 + draw.choice([0, 1, 2, 3, 16, 17, 18, 19, 20, 24, 28, 32, 36])
            data[at : at + 4] = draw.choice([bytes(4), b"\xff\xff\xff\xff", b"\0\0\0\3", bytes(draw.randrange(256) for _ in range(4))])
        elif how == 3 and pages > 3:  # a field of the head or of a slot
            data[draw.randrange(3) * 4096 + draw.randrange(36)] = draw.randrange(256)
        else:
            for _ in range(draw.choice([1, 1, 1, 2, 8, 64])):
                data[draw.randrange(len(data))] ^= 1 << draw.randrange(8)
        return bytes(data)


    def frames(self, whole):
        """Frames of carried logs of some files, one behind the other, in part with a wrong length; and the root digest of one of the files."""
        draw, parts = self.draw, []
        for it in draw.choices(whole, k=draw.randrange(1, 4)):
            frame = bytearray(self.read(it["name"] + ".proof"))
            if draw.randrange(4) == 0:
                frame[draw.choice([0, 4, 5, 6, 7])] ^= 1 << draw.randrange(8)
            parts.append(bytes(frame) + bytes(draw.choice([0, 0, 0, 7, 8, 9])))
        return b"".join(parts), draw.choice(whole)["root"]


def make(program, folder, count):
    """The cases of each file and of `count` damaged sets, in `folder`; and the whole ones with their files' names."""
    maker, whole = Maker(program, folder), []
    for name, metric, dim, most, rows in FILES:
        file = name + ".mt"
        if isinstance(rows, int):
            maker.run("gen", file, "--metric", metric, "--dim", str(dim), "--count", str(rows))
        else:
            maker.run("create", file, "--metric", metric, "--dim", str(dim))
            maker.run("session", file, given=rows)
        asked = [(kind, bound, maker.point(dim, most, metric)) for kind, bound in (("range", most * dim // 8), ("nearest", 7), ("range", 0), ("nearest", 40))]
        lines = "".join(f"{kind},{bound},{','.join(map(str, point))}\n" for kind, bound, point in asked)
        answers = maker.run("batch", file, "--tags", "show", "--log", name + ".log", given=lines)
        root = maker.run("seal", file)[1].split()[-1]
        maker.run("proof", file, "--log", name + ".log", "--proof", name + ".proof")
        whole.append({"name": name, "file": file, "metric": metric, "dim": dim, "most": most, "asked": asked, "answers": answers, "root": root})
        data, logs, carried = maker.read(file), maker.read(name + ".log"), maker.read(name + ".proof")
        maker.judge(name, data, logs, carried, root)
        maker.tell(name, data, logs)
        for kind, bound in (("range", most * dim // 8), ("range", 1 << 63), ("nearest", 7), ("nearest", 1 << 40)):
            maker.ask(name, data, kind, bound, maker.point(dim, most, metric), True)
        maker.ask(f"a point too long on {name}", data, "nearest", 3, [0] * (dim + 1), False)
        maker.ask(f"none of the nearest on {name}", data, "nearest", 0, [0] * dim, False)
    for number in range(count):
        it = maker.draw.choice(whole)
        parts = (maker.damaged(part) if maker.draw.randrange(4) else part for part in (maker.read(it["name"] + end) for end in (".mt", ".log", ".proof")))
        file, logs, carried = parts
        maker.judge(f"damaged {number} of {it['name']}", file, logs, carried, it["root"])
        maker.tell(f"damaged {number} of {it['name']}", file, logs)
        maker.ask(f"damaged {number} of {it['name']}", file, maker.draw.choice(["range", "nearest"]), maker.draw.choice([1, 100, 1 << 40]), maker.point(it["dim"], it["most"], it["metric"]), False)
    for number in range(count // 4):
        carried, root = maker.frames(whole)
        carried = maker.keep(carried)
        maker.add("prove", f"frames together {number}", maker.run("proof", "--log", carried, "--root", root), logs=carried, root=root)
    with open(os.path.join(folder, "cases.json"), "w") as out:
        json.dump(maker.cases, out)
    return maker, whole
