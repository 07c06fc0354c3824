"""The class `Index`."""

from __future__ import annotations

import contextlib
import ctypes
import os
import tempfile
import threading
from typing import Any, Iterable, Iterator, List, NamedTuple, Optional, Tuple, Union

from . import _library, _plan, _points, _program
from ._answers import Hit, Level, Node, Pair, Report, Shape, Spread, Stats
from ._errors import NoQuery, Refused, Stopped
from ._file import File, read_state
from ._points import Points

Path = Union[str, "os.PathLike[str]"]

_BLOCK = 4096
"""How many points one call of the library answers at most. Python hears of an interrupt between two calls."""
_BLOCK_HITS = 1 << 20
"""How many hits the buffer of such a call is first made for, where more than one point is asked for."""
_HIT_BYTES = ctypes.sizeof(_library.CHit)


class Index:
    """An index file that is open, and mapped. It is opened at once, and read only within the calls.

    Each method may be called from several threads at once: `load` and `insert` wait for the calls that read, and those for them. A call that
    reads holds the system's shared lock on the file, so no process writes the file under it. It sees all that was added before it. A call
    raises `InUse` where another process, or another `Index` of this one, writes the file, and `load` and `insert` also where one reads it. It
    raises ValueError where the index is closed.

    A point is an iterable of `dim` whole numbers from 0 to 4294967295, or an array of numpy of one dimension. Points and rows are an iterable
    of points, or an array of two dimensions, of any type of numbers and in any order of memory. Floats that are whole are taken."""

    def __init__(self, path: Path) -> None:
        """Opens the index file `path`. Raises OSError where it can't be read."""
        self._file = File(os.fsdecode(path))
        self._rooms = _Rooms()

    @classmethod
    def create(cls, path: Path, *, metric: str, dim: int, max_objects: Optional[int] = None, promote: Optional[str] = None,
               split: Optional[str] = None) -> "Index":
        """Makes an empty index in the file `path`, which is not there or is empty, and opens it.

        `metric` is hamming, l1, max, kendall, hausdorff, mixsum, mixmax or l1cap. `dim` is 1 to 64, and even for mixsum and mixmax.
        `max_objects` is how many objects the index may hold, 16777216 where it is not given. `promote` ("mrad" or "mmrad") and `split`
        ("hyperplane" or "balanced") say how full nodes are split.

        Raises ValueError where one of these is not what it may be, `NoIndex` where the file holds something, and OSError where it can't be
        made."""
        given = {"metric": metric, "dim": dim, "max": max_objects, "promote": promote, "split": split}
        words = [word for name, value in given.items() if value is not None for word in (f"--{name}", str(value))]
        _program.said(_program.run(["create", os.path.abspath(os.fsdecode(path)), *words]))
        return cls(path)

    @classmethod
    def from_array(cls, path: Path, rows: Any, *, metric: str, tags: Any = None, workers: int = 1, max_objects: Optional[int] = None,
                   promote: Optional[str] = None, split: Optional[str] = None) -> "Index":
        """Makes an index of all `rows` at once, and opens it. Row i gets the id i.

        `rows` has the shape (count, dim), and count is at least 1. `tags` are `count` whole numbers below 2^64, and the ids where they are not
        given. `workers` is how many threads build the tree. The other parameters are those of `create`.

        Raises what `create` and `load` raise. The file is removed where a row is refused."""
        judged = Points(rows)
        labels = None if tags is None else _points.tags(tags, len(judged))
        if not len(judged):
            raise ValueError("an index of no rows has no dimension: use create")
        was_there = os.path.exists(path)
        index = cls.create(path, metric=metric, dim=judged.dim or 0, max_objects=max_objects, promote=promote, split=split)
        try:
            index._load(judged, labels, workers)
        except BaseException:
            index.close()
            if not was_there:
                os.remove(path)
            raise
        return index

    def load(self, rows: Any, tags: Any = None, *, workers: int = 1) -> int:
        """Fills an empty index with all `rows`, of the shape (count, dim), or with none. Returns their number.

        `tags` are `count` whole numbers below 2^64, and the ids where they are not given. `workers` is how many threads build the tree: the
        program's, where there are more than one.

        Raises `NoQuery` where a row holds no whole numbers, `Refused` where the index refuses one or holds objects, and ValueError where the
        rows have to be handed over as a script, and it takes more than 64 MiB: to the program, or where they are of several lengths."""
        judged = Points(rows)
        return self._load(judged, None if tags is None else _points.tags(tags, len(judged)), workers)

    def _load(self, rows: Points, tags: Optional[List[str]], workers: int) -> int:
        # The library builds by one thread.
        plans = _plan.is_here() and (workers == 1 or not _program.is_here())
        asked: Union[bytes, _plan.Asked]
        asked = _plan.load(rows, tags) if plans else _program.load_script(rows.lines(), tags)
        with self._file.writing():
            text = _program.said(self._run(asked, ["--workers", str(workers)]))
        if not text.startswith("loaded "):
            words = text.split("\n", 1)[0]
            raise Refused(f"the load is {words}", int(words.rsplit(" ", 1)[1]) if words.startswith("refused row ") else 0, [])
        return int(text.split()[1])

    def _run(self, asked: "Union[bytes, _plan.Asked]", options: List[str]) -> _program.Ran:
        """Does what is asked to the file: by a plan, or by the program with a script."""
        if isinstance(asked, bytes):
            return _program.run(["session", self._file.whole_path, *options], asked)
        return _plan.run(self._file, asked)

    def insert(self, rows: Any, tags: Any = None) -> List[int]:
        """Adds `rows`, of the shape (count, dim), one after another. Returns their ids. Each row is durable then.

        `tags` are `count` whole numbers below 2^64, and the ids where they are not given. Each call looks through the whole file for free
        pages, which takes some milliseconds: hand in many rows at once.

        Raises `NoQuery` where a row holds no whole numbers; then nothing is added. Raises `Refused` where the index refuses rows; the others
        are added all the same. Raises `Stopped` where a write failed, or the program ended, after some rows were added."""
        judged = Points(rows)
        labels = None if tags is None else _points.tags(tags, len(judged))
        ids: List[int] = []
        refused: List[Tuple[int, str]] = []
        parts: Iterator[Union[bytes, _plan.Asked]]
        if _plan.is_here():
            parts = _plan.inserts(judged, labels)
        else:
            parts = _program.insert_scripts(judged.lines(), labels)
        for asked in parts:
            with self._file.writing():
                ran = self._run(asked, [])
            # A reply that was cut by the program's end is none.
            for line in ran[1].split("\n")[:-1]:
                if line.startswith("id "):
                    ids.append(int(line[3:]))
                elif line.startswith("refused "):
                    refused.append((len(ids) + len(refused), line))
            if ran[0] != 0:
                cause = _program.error(ran)
                if not ids:
                    raise cause
                raise Stopped(f"{cause}; {len(ids)} of {len(judged)} rows were added", len(ids) + len(refused), ids) from cause
        if refused:
            row, line = refused[0]
            raise Refused(f"row {row} is {line}; {len(ids)} of {len(judged)} rows were added", row, ids)
        return ids

    def kneighbors(self, points: Any, n_neighbors: int = 5, return_distance: bool = True, return_tags: bool = False,
                   n_jobs: Optional[int] = 1) -> Any:
        """Finds the `n_neighbors` nearest objects of each of `points`, which have the shape (count, dim).

        Returns `(distances, ids)`, arrays of int64 of the shape (count, n_neighbors), each row by distance, then by id. Where
        `return_distance` is false, there are no distances. Where `return_tags` is true, an array of the tags, of uint64, comes last. An array
        that is alone comes without a tuple. Without numpy they are lists of lists.

        `n_jobs` is how many threads search. None is 1, and -1 is one on each processor.

        Raises `NoQuery`, which names the row, where a point is none of the space, and where the index has fewer than `n_neighbors` objects."""
        asked, wanted = Points(points), _points.count(n_neighbors)
        numpy = _points.numpy_or_none()
        with self._file.reading() as held:
            objects = read_state(*held).objects
            if wanted > objects:
                raise NoQuery(f"n_neighbors is {n_neighbors}, and the index holds {objects} objects")
            parts = self._each(held, asked, "nearest", wanted, n_jobs)
        if numpy is None:
            return _chosen(_lists(parts), return_distance, return_tags)
        shape = (len(asked), wanted)
        return _chosen([column.reshape(shape) for column in _arrays(numpy, parts)], return_distance, return_tags)

    def radius_neighbors(self, points: Any, radius: float, return_distance: bool = True, return_tags: bool = False,
                         n_jobs: Optional[int] = 1) -> Any:
        """Finds all objects within `radius` of each of `points`, which have the shape (count, dim).

        Returns `(distances, ids)`, each an array of `count` arrays of int64, by distance, then by id. `return_distance`, `return_tags` and
        `n_jobs` are as in `kneighbors`. Without numpy they are lists of lists.

        Raises `NoQuery`, which names the row, where a point is none of the space, and where `radius` is negative or no number."""
        asked, bound = Points(points), _points.radius(radius)
        numpy = _points.numpy_or_none()
        with self._file.reading() as held:
            parts = self._each(held, asked, "range", bound, n_jobs)
        if numpy is None:
            return _chosen(_lists(parts), return_distance, return_tags)
        counts = [count for part in parts for count in part.counts]
        return _chosen([_array_of_arrays(numpy, column, counts) for column in _arrays(numpy, parts)], return_distance, return_tags)

    def nearest(self, point: Iterable[int], count: int) -> List[Hit]:
        """Returns the `count` objects nearest to `point`, by distance, then by id. There are fewer where the index holds fewer.

        Raises `NoQuery` where `point` is none of the space or `count` is below 1, and `Damaged` where the search comes to a damaged page."""
        return self._ask("nearest", point, _points.count(count))

    def range(self, point: Iterable[int], radius: float) -> List[Hit]:
        """Returns every object within `radius` of `point`, by distance, then by id. A `radius` of math.inf finds every object.

        Raises `NoQuery` where `point` is none of the space or `radius` is negative, and `Damaged` where the search comes to a damaged page."""
        return self._ask("range", point, _points.radius(radius))

    def nearest_with_log(self, point: Iterable[int], count: int) -> Tuple[List[Hit], bytes]:
        """Returns the answer of `nearest`, and the frame of the log that shows it. Raises `NoLibrary` too."""
        return self._ask_library("nearest", point, _points.count(count), True)

    def range_with_log(self, point: Iterable[int], radius: float) -> Tuple[List[Hit], bytes]:
        """Returns the answer of `range`, and the frame of the log that shows it. Raises `NoLibrary` too."""
        return self._ask_library("range", point, _points.radius(radius), True)

    def nearest_of_each(self, points: Iterable[Iterable[int]], count: int, threads: int = 1) -> List[List[Hit]]:
        """Returns the answer of `nearest` for each of `points`, in their order. Works by `threads` threads."""
        asked, wanted = Points(points), _points.count(count)
        with self._file.reading() as held:
            return _answers(self._each(held, asked, "nearest", wanted, max(1, threads)))

    def range_of_each(self, points: Iterable[Iterable[int]], radius: float, threads: int = 1) -> List[List[Hit]]:
        """Returns the answer of `range` for each of `points`, in their order. Works by `threads` threads."""
        asked, bound = Points(points), _points.radius(radius)
        with self._file.reading() as held:
            return _answers(self._each(held, asked, "range", bound, max(1, threads)))

    def iter_nearest(self, point: Iterable[int]) -> Iterator[Hit]:
        """Yields all objects one after another, by distance from `point`, then by id. Searches only as far as it is asked.

        No lock is held between two hits. What is added meanwhile comes if it stands behind the last hit that was given. Each search takes
        twice as many hits as the one before, so the first n cost at most what `nearest` takes for some 4 n.

        Raises `NoQuery` at once where `point` is none of the space."""
        numbers = _points.numbers(point)
        return self._going_on(numbers, self.nearest(numbers, 16))

    def _going_on(self, point: List[int], hits: List[Hit]) -> Iterator[Hit]:
        count, last = 16, (-1, -1)
        while True:
            for hit in hits:
                if (hit.distance, hit.id) > last:
                    last = (hit.distance, hit.id)
                    yield hit
            if len(hits) < count:
                return
            count *= 2
            hits = self.nearest(point, count)

    def join(self, other: "Union[Index, Path]", radius: float) -> List[Pair]:
        """Returns each pair of an object of this index and one of `other` that are at most `radius` apart, by the left id, then by the right id.

        `other` is an index, or the path of one. It may be this one. Raises `Rejected` where the two have other metrics or dimensions."""
        bound = _points.radius(radius)
        text = self._told(["join", self._file.whole_path, "--other", _path_of(other), "--radius", str(bound)])
        return [Pair(*map(int, line.split())) for line in text.splitlines()[1:]]

    def shape(self) -> Shape:
        """Returns the height of the tree, its objects and its nodes. Raises `Damaged` where the walk comes to a damaged page."""
        lines = [line.split() for line in self._said("shape").splitlines()]
        nodes = [Node(int(level), int(entries), None if centre == "-" else tuple(map(int, centre.split(","))), None if reach == "-" else int(reach))
                 for level, entries, centre, reach in lines[3:]]
        return Shape(int(lines[0][1]), int(lines[1][1]), nodes)

    def stats(self) -> Stats:
        """Returns what is known of the index without its objects. Raises `Damaged` where the walk of the tree comes to a damaged page."""
        lines = self._said("stats").splitlines()
        told = dict(line.split(" ", 1) for line in lines if not line.startswith("level "))
        levels = [_level(line.split()) for line in lines if line.startswith("level ")]
        most, generation, objects, height, nodes, pages, free = (
            int(told[word]) for word in ("max", "generation", "objects", "height", "nodes", "pages", "free"))
        return Stats(told["metric"], int(told["dim"]), told["promote"], told["split"], most, generation, objects, height, nodes, pages, free, levels)

    def rows(self) -> Any:
        """Returns `(tags, rows)`, in order of id: arrays of uint64 of the shapes (count,) and (count, dim). Without numpy they are lists.

        Raises `Damaged` where the walk of the tree comes to a damaged page, or an id is not there once."""
        lines = self._said("dump").splitlines()[1:]
        numpy = _points.numpy_or_none()
        if numpy is None:
            held = [[int(number) for number in line.split(",")] for line in lines]
            return [row[0] for row in held], [row[1:] for row in held]
        numbers = numpy.array(",".join(lines).split(","), "u8") if lines else numpy.empty(0, "u8")
        table = numbers.reshape(len(lines), self.dim + 1)
        return table[:, 0].copy(), table[:, 1:].copy()

    def show(self, logs: Any, *, other: "Optional[Union[Index, Path]]" = None) -> str:
        """Returns the frames of `logs`, any bytes-like object, in words: the verdict, the query, its answers, and the walk with the reason of
        each mark, as the program's `show` writes them. A rejected log is shown as far as its records lead.

        Where `other` is given, an index or the path of one, the logs are those of a join with it, and the program shows them.

        Raises `NoIndex`, `TooLong` and `NoLibrary`, and TypeError where `logs` are no bytes. With `other` also `Rejected` where the two have
        other metrics or dimensions, and what `join` raises."""
        held = _bytes(logs)
        if other is None:
            with self._file.reading() as (file, size):
                return _library.report("mtree_show", file, size, held, len(held)).text
        with _log_file(held) as log, self._file.reading():
            ran = _program.run(["show", self._file.whole_path, "--other", _path_of(other), "--log", log])
        if ran[0] != 1 or ran[1] == "rejected spaces\n":
            return _program.said(ran)
        return ran[1]

    def explain(self, point: Iterable[int], count: Optional[int] = None, *, radius: Optional[float] = None) -> str:
        """Returns how the `count` objects nearest to `point`, or all within `radius`, were found: the text of `show` on the query's log.

        Raises TypeError where not one of `count` and `radius` is given, `NoLibrary`, and what `nearest` and `range` raise."""
        if (count is None) == (radius is None):
            raise TypeError("explain takes a count or a radius")
        log = self.range_with_log(point, radius)[1] if count is None and radius is not None else self.nearest_with_log(point, count or 0)[1]
        return self.show(log)

    def seal(self) -> bytes:
        """Audits the file. Returns its root digest of 32 bytes, by which `mtree.prove` judges. Raises `Rejected` where it is not sound."""
        return bytes.fromhex(self._said("seal").split()[-1])

    def carry(self, logs: Any) -> bytes:
        """Returns carried logs: each of `logs` with the pages that it names and their paths to the root digest, as `mtree.prove` takes them.

        `logs` are frames, one behind another, as any bytes-like object. Raises `Rejected` where a log is not accepted."""
        held = _bytes(logs)
        if _library.is_here():
            with self._file.reading() as file:
                status, frames, text = _library.carried(*file, held, len(held))
            if status != 0:
                raise _library.error(status, text)
            return frames
        with _log_file(held) as log:
            self._told(["proof", self._file.whole_path, "--log", log, "--proof", f"{log}-carried"])
            with open(f"{log}-carried", "rb") as file:
                return file.read()

    def audit(self) -> Report:
        """Audits the file. Raises `NoIndex` where it is no index, and `NoLibrary`."""
        with self._file.reading() as (file, size):
            return _library.report("mtree_audit", file, size)

    def verify(self, logs: Any) -> Report:
        """Judges the frames of `logs`, any bytes-like object, by the file. Does not audit the file.

        Raises `NoIndex`, `TooLong` and `NoLibrary`, and TypeError where `logs` are no bytes."""
        held = _bytes(logs)
        with self._file.reading() as (file, size):
            return _library.report("mtree_verify", file, size, held, len(held))

    def check(self, logs: Any) -> Report:
        """Audits the file. Where it is sound, judges the frames of `logs` by it and tells the answer of each accepted one. Raises what `verify`
        raises."""
        held = _bytes(logs)
        with self._file.reading() as (file, size):
            return _library.report("mtree_check", file, size, held, len(held))

    @property
    def path(self) -> str:
        """Returns the file's path, as it was given."""
        return self._file.path

    @property
    def metric(self) -> str:
        """Returns the name of the metric. Raises `NoIndex` where the file is no index, as each of these properties."""
        return self._file.state().metric

    @property
    def dim(self) -> int:
        """Returns the number of coordinates of a point."""
        return self._file.state().dim

    @property
    def max_objects(self) -> int:
        """Returns the most objects that the index may hold."""
        return self._file.state().max_objects

    @property
    def generation(self) -> int:
        """Returns the generation of the file: 1 when it is made, and one more with each load and each inserted row."""
        return self._file.state().generation

    def __len__(self) -> int:
        """Returns the number of objects in the index."""
        return self._file.state().objects

    def __bool__(self) -> bool:
        """Returns True: an index that holds nothing is an index."""
        return True

    def __enter__(self) -> "Index":
        return self

    def __exit__(self, *_: Any) -> None:
        self.close()

    def __reduce__(self) -> Tuple[Any, ...]:
        return Index, (self._file.whole_path,)

    def __repr__(self) -> str:
        return f"mtree.Index({self._file.path!r})"

    def close(self) -> None:
        """Closes the file, once no call of another thread is running. A later call raises ValueError."""
        self._file.close()

    def _said(self, command: str) -> str:
        """Returns what a command says of the file alone: by the library, or else by the program."""
        if not _library.is_here():
            return self._told([command, self._file.whole_path])
        with self._file.reading() as held:
            status, text = _library.text(f"mtree_{command}", *held)
            if status != 0:
                raise _library.error(status, text)
            return text

    def _told(self, words: List[str]) -> str:
        """Returns what the program writes of the file. No other thread changes it meanwhile."""
        with self._file.reading():
            return _program.said(_program.run(words))

    def _ask(self, word: str, point: Any, bound: int) -> List[Hit]:
        if _library.is_here():
            return self._ask_library(word, point, bound, False)[0]
        asked = Points([point])
        with self._file.reading() as held:
            return _answers(self._each(held, asked, word, bound, 1, is_one=True))[0]

    def _ask_library(self, word: str, point: Any, bound: int, with_log: bool) -> Tuple[List[Hit], bytes]:
        call = _library.call(f"mtree_{word}")
        place, coordinates, kept = _points.point(point)
        rooms, sizes = self._rooms, _library.CSizes()
        with self._file.reading() as held:
            while True:
                log_room = len(rooms.log) if with_log else 0
                status = call(*held, place, coordinates, bound, rooms.hits, len(rooms.hits), rooms.log, log_room, ctypes.byref(sizes))
                if status != _library.SHORT:
                    break
                if sizes.hits > len(rooms.hits):
                    rooms.hits = (_library.CHit * sizes.hits)()
                if sizes.log > len(rooms.log):
                    rooms.log = (ctypes.c_uint8 * sizes.log)()
            if status != 0:
                raise _no_answer(held, status, coordinates)
        del kept
        return _hits(rooms.hits, 0, sizes.hits), bytes(memoryview(rooms.log)[: sizes.log])

    def _each(self, held: Tuple[Any, int], points: Points, word: str, bound: int, n_jobs: Optional[int], is_one: bool = False) -> List["_Part"]:
        """Returns the answers for `points`, in their order. The caller holds the file, whose bytes are `held`."""
        threads = _points.jobs(n_jobs)
        if not len(points):
            return []
        if not _library.is_here():
            return [_packed(self._each_by_program(held, points, word, bound, threads, is_one))]
        call, places = _library.call(f"mtree_{word}"), points.places()
        # A hit more than there are objects is never needed.
        room = min(bound, max(1, read_state(*held).objects)) if word == "nearest" else 64
        step = max(1, min(_BLOCK, _BLOCK_HITS // room))

        def work(first: int, end: int) -> List[_Part]:
            if not points.are_in_one:
                return [one_by_one(first, end)]
            parts = []
            for start in range(first, end, step):
                stop = min(start + step, end)
                part = self._block(held, places[start:stop], word, bound, room)
                # Where a row has no answer, each is asked for alone, so that the exception names the row.
                parts.append(one_by_one(start, stop) if part is None else part)
            return parts

        def one_by_one(first: int, end: int) -> _Part:
            hits, sizes, found, counts = (_library.CHit * room)(), _library.CSizes(), bytearray(), []
            about = ctypes.byref(sizes)
            for number in range(first, end):
                place, coordinates = places[number]
                status = call(*held, place, coordinates, bound, hits, len(hits), None, 0, about)
                if status == _library.SHORT:
                    hits = (_library.CHit * sizes.hits)()
                    status = call(*held, place, coordinates, bound, hits, len(hits), None, 0, about)
                if status != 0:
                    raise _no_answer(held, status, coordinates, f"row {number}: ")
                found += ctypes.string_at(hits, sizes.hits * _HIT_BYTES)
                counts.append(sizes.hits)
            return _Part(found, counts)

        threads = min(threads, len(places))
        if threads == 1:
            return work(0, len(places))
        from concurrent.futures import ThreadPoolExecutor  # here, since it takes longer to load than many queries take

        with ThreadPoolExecutor(threads) as workers:
            cuts = [len(places) * i // threads for i in range(threads + 1)]
            return [part for parts in workers.map(work, cuts[:-1], cuts[1:]) for part in parts]

    def _block(self, held: Tuple[Any, int], places: List[Tuple[int, int]], word: str, bound: int, room: int) -> "Optional[_Part]":
        """Returns the answers for points that stand one after another, by one call. Returns None where one of them has no answer."""
        (place, coordinates), rows = places[0], len(places)
        call = _library.call(f"mtree_{word}_each")
        counts, size, hits = (ctypes.c_size_t * rows)(), ctypes.c_size_t(), (_library.CHit * (room * rows))()
        status = call(*held, place, coordinates * rows, bound, hits, len(hits), counts, rows, ctypes.byref(size))
        if status == _library.SHORT:
            hits = (_library.CHit * size.value)()
            status = call(*held, place, coordinates * rows, bound, hits, len(hits), counts, rows, ctypes.byref(size))
        return None if status != 0 else _Part(hits, list(counts))

    def _each_by_program(self, held: Tuple[Any, int], points: Points, word: str, bound: int, threads: int, is_one: bool) -> List[List[Hit]]:
        dim = read_state(*held).dim
        lead = "" if is_one else "row {}: "
        for number, (_, coordinates) in enumerate(points.places()):
            if coordinates != dim:
                raise NoQuery(lead.format(number) + _no_query(coordinates, dim))
        answers: List[List[Hit]] = []
        for script in _program.query_scripts(word, bound, points.lines()):
            words = ["batch", self._file.whole_path, "--tags", "show", "--workers", str(threads)]
            for hits in _program.answers(_program.said(_program.run(words, script))):
                if hits is None:
                    raise NoQuery(lead.format(len(answers)) + _no_query(dim, dim))
                answers.append(hits)
        return answers


def prove(logs: Any, root: Any) -> Report:
    """Judges the frames of carried logs in `logs` by `root`, the 32 bytes of an index's root digest, without the file.

    `Index.carry` makes the carried logs, and `Index.seal` the digest. Both are any bytes-like objects. Raises ValueError where `root` has
    another length, `TooLong` and `NoLibrary`."""
    carried, digest = _bytes(logs), _bytes(root)
    if len(digest) != 32:
        raise ValueError(f"a root digest has 32 bytes, and this one {len(digest)}")
    return _library.report("mtree_proof", carried, len(carried), digest)


class _Rooms(threading.local):
    """The buffers of one thread, which grow to what was needed."""

    def __init__(self) -> None:
        self.hits = (_library.CHit * 64)()
        self.log = (ctypes.c_uint8 * 4096)()


class _Part(NamedTuple):
    """The answers for some points, one after another."""

    hits: Any
    """The hits as bytes, each a `CHit`. There may be more bytes than hits."""
    counts: List[int]
    """How many hits each point has."""


def _packed(answers: List[List[Hit]]) -> _Part:
    hits = [hit for answer in answers for hit in answer]
    return _Part((_library.CHit * len(hits))(*(_library.CHit(hit.id, hit.distance, hit.tag) for hit in hits)), [len(answer) for answer in answers])


def _hits(room: Any, start: int, count: int) -> List[Hit]:
    return [Hit(hit.id, hit.distance, hit.tag) for hit in room[start : start + count]]


def _answers(parts: List[_Part]) -> List[List[Hit]]:
    """Returns the hits of each point."""
    answers = []
    for part in parts:
        start, room = 0, (_library.CHit * sum(part.counts)).from_buffer(part.hits)
        for count in part.counts:
            answers.append(_hits(room, start, count))
            start += count
    return answers


def _lists(parts: List[_Part]) -> List[Any]:
    """Returns the distances, the ids and the tags, each as a list for each point."""
    return [[[hit[place] for hit in hits] for hits in _answers(parts)] for place in (1, 0, 2)]


def _arrays(numpy: Any, parts: List[_Part]) -> List[Any]:
    """Returns the distances, the ids and the tags of all points, one after another in an array each."""
    fields = numpy.dtype({"names": ["id", "distance", "tag"], "formats": ["u4", "u8", "u8"],
                          "offsets": [getattr(_library.CHit, name).offset for name in ("id", "distance", "tag")], "itemsize": _HIT_BYTES})
    held = [numpy.frombuffer(part.hits, fields, sum(part.counts)) for part in parts if part.counts]
    return [numpy.concatenate([numpy.empty(0, kind), *(part[name].astype(kind) for part in held)])
            for name, kind in (("distance", "i8"), ("id", "i8"), ("tag", "u8"))]


def _array_of_arrays(numpy: Any, column: Any, counts: List[int]) -> Any:
    """Returns a column as an array for each point, in an array."""
    held, start = numpy.empty(len(counts), object), 0
    for number, count in enumerate(counts):
        held[number] = column[start:start + count]
        start += count
    return held


def _chosen(columns: List[Any], with_distance: bool, with_tags: bool) -> Any:
    """Returns those of distances, ids and tags that are wanted."""
    wanted = [column for column, is_wanted in zip(columns, (with_distance, True, with_tags)) if is_wanted]
    return wanted[0] if len(wanted) == 1 else tuple(wanted)


def _no_answer(held: Tuple[Any, int], status: int, coordinates: int, lead: str = "") -> Exception:
    """Returns the exception for a query that the library did not answer."""
    if status == 2:
        return NoQuery(lead + _no_query(coordinates, read_state(*held).dim))
    return _library.error(status, "" if status == 8 else _library.text("mtree_audit", *held)[1])


def _no_query(coordinates: int, dim: int) -> str:
    """Says what is wrong with a point of `coordinates` numbers, on an index of `dim`."""
    if coordinates != dim:
        return f"the point has {coordinates} numbers, the index {dim}"
    return "the point is not of the index's space: kendall takes rankings, and hausdorff sets of numbers"


def _level(words: List[str]) -> Level:
    """Returns a level of the tree from its line: `level L nodes N entries A B C radius A B C`, with a dash for no numbers."""
    at = words.index("radius")
    entries, radii = (None if numbers == ["-"] else Spread(*map(int, numbers)) for numbers in (words[5:at], words[at + 1:]))
    return Level(int(words[1]), int(words[3]), entries, radii)


def _path_of(index: Union[Index, Path]) -> str:
    """Returns the path of an index for a child process."""
    return index._file.whole_path if isinstance(index, Index) else os.path.abspath(os.fsdecode(index))


@contextlib.contextmanager
def _log_file(frames: bytes) -> Iterator[str]:
    """Returns the path of a file of logs, which is there meanwhile."""
    with tempfile.TemporaryDirectory(prefix="mtree-") as room:
        log = os.path.join(room, "log")
        with open(log, "wb") as file:
            file.write(frames)
        yield log


def _bytes(given: Any) -> bytes:
    """Returns a bytes-like object as bytes. Raises TypeError for anything else."""
    return given if isinstance(given, bytes) else bytes(memoryview(given))
