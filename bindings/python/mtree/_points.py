"""Points, rows, tags and bounds as callers hand them in. Each is read once, and judged."""

from __future__ import annotations

import ctypes
import importlib
import math
import operator
import os
from typing import Any, List, Optional, Tuple

from ._errors import NoQuery

_MOST = (1 << 64) - 1


def numpy_or_none() -> Any:
    """Returns the module numpy, or None where it is not installed."""
    try:
        return importlib.import_module("numpy")
    except ImportError:
        return None


def coordinate(given: Any) -> int:
    """Returns a coordinate as a whole number below 2^32. A float that is whole is taken. Raises `NoQuery` for all else."""
    try:
        whole = operator.index(given)
    except TypeError:
        try:
            is_whole = float(given).is_integer()
        except (TypeError, ValueError, OverflowError):
            raise NoQuery(f"a point is a list of whole numbers, and {given!r} is none") from None
        if not is_whole or isinstance(given, (str, bytes)):
            raise NoQuery(f"a coordinate is a whole number, and {given!r} is none") from None
        whole = int(given)
    if not 0 <= whole < 1 << 32:
        raise NoQuery(f"a coordinate is a whole number from 0 to 4294967295, and {given!r} is none")
    return whole


def point(given: Any) -> Tuple[int, int, Any]:
    """Returns the place of a point's coordinates, their number, and what has to live while they are read."""
    about = getattr(given, "__array_interface__", None)
    if about is not None:
        if len(about["shape"]) != 1:
            raise NoQuery(f"a point is an array of one dimension, and this one has {len(about['shape'])}")
        if about["typestr"] == "<u4" and about.get("strides") is None and isinstance(about.get("data"), tuple):
            return about["data"][0], about["shape"][0], (given, about)
        given = given.tolist() if hasattr(given, "tolist") else given
    try:
        numbers = list(given)
    except TypeError:
        raise NoQuery("a point is a list of whole numbers") from None
    held = (ctypes.c_uint32 * len(numbers))(*map(coordinate, numbers))
    return ctypes.addressof(held), len(numbers), held


def numbers(given: Any) -> List[int]:
    """Returns a point's coordinates as a list."""
    place, count, kept = point(given)
    held = list((ctypes.c_uint32 * count).from_address(place)) if count else []
    del kept
    return held


class Points:
    """Points or rows that were judged: an array of two dimensions, or a list of points of any lengths."""

    def __init__(self, given: Any) -> None:
        """Reads `given`, which is an array of two dimensions or an iterable of points. Raises `NoQuery`, which names the row."""
        self._rows: List[Tuple[int, int, Any]] = []
        self._table: Any = None
        if hasattr(given, "__array_interface__") or hasattr(given, "__array__"):
            self._table = table(given)
            return
        try:
            rows = iter(given)
        except TypeError:
            raise NoQuery("points are an array of two dimensions, or a list of points") from None
        for number, row in enumerate(rows):
            try:
                self._rows.append(point(row))
            except NoQuery as error:
                raise NoQuery(f"row {number}: {error}") from None

    def __len__(self) -> int:
        return len(self._rows) if self._table is None else len(self._table)

    @property
    def dim(self) -> Optional[int]:
        """How many numbers the first point has. None where there is no point and the array does not tell it."""
        if self._table is not None:
            return int(self._table.shape[1])
        return self._rows[0][1] if self._rows else None

    @property
    def are_in_one(self) -> bool:
        """Whether all points stand one after another in memory."""
        return self._table is not None

    def places(self) -> List[Tuple[int, int]]:
        """Returns the place and the number of each point's coordinates. They live as long as this."""
        if self._table is None:
            return [(place, count) for place, count, _ in self._rows]
        rows, count = self._table.shape
        first = self._table.__array_interface__["data"][0]
        return [(first + number * count * 4, count) for number in range(rows)]

    def in_one(self) -> Optional[Tuple[int, int, Any]]:
        """Returns the place of all rows, one after another, how many numbers each has, and what has to live while they are read. Returns None
        where there is no row, or one has another length."""
        places = self.places()
        if not places or any(count != places[0][1] for _, count in places):
            return None
        width = places[0][1]
        if self._table is not None:
            return places[0][0], width, self._table
        held = (ctypes.c_uint32 * (width * len(places)))()
        for number, (place, _) in enumerate(places):
            ctypes.memmove(ctypes.addressof(held) + 4 * width * number, place, 4 * width)
        return ctypes.addressof(held), width, held

    def lines(self) -> List[str]:
        """Returns each point as the fields of a script's record."""
        if self._table is None:
            return [",".join(map(str, (ctypes.c_uint32 * count).from_address(place))) for place, count, _ in self._rows]
        return [",".join(map(str, row)) for row in self._table.tolist()]


def table(given: Any) -> Any:
    """Returns an array of two dimensions as uint32, row after row. Raises `NoQuery`, which names the row."""
    numpy = numpy_or_none()
    if numpy is None:
        raise NoQuery("an array needs numpy, which is not installed: hand in a list of points")
    held = numpy.asarray(given)
    if held.ndim != 2:
        raise NoQuery(f"points are an array of two dimensions, and this one has {held.ndim}")
    if held.dtype.kind == "f":
        if held.dtype.itemsize == 2:
            held = held.astype(numpy.float64)  # since 2^32 is none of its numbers
        fits = (held == numpy.floor(held)) & (held >= 0) & (held < 1 << 32)
    elif held.dtype.kind in "biu":
        fits = (held >= 0) & (held < 1 << 32) if held.dtype.itemsize > 4 else held >= 0
    else:
        held = numpy.array([_row(number, row) for number, row in enumerate(held.tolist())], numpy.uint32).reshape(held.shape)
        fits = numpy.True_
    if not fits.all():
        row, column = (int(place) for place in numpy.argwhere(~fits)[0])
        _row(row, [held[row, column].item()])
    return numpy.ascontiguousarray(held, numpy.uint32)


def _row(number: int, row: List[Any]) -> List[int]:
    """Returns a row's coordinates. Raises `NoQuery`, which names the row."""
    try:
        return [coordinate(given) for given in row]
    except NoQuery as error:
        raise NoQuery(f"row {number}: {error}") from None


def tags(given: Any, count: int) -> List[str]:
    """Returns tags as words of a script, one for each of `count` rows. Raises ValueError."""
    words = []
    for tag in given.tolist() if hasattr(given, "tolist") else given:
        try:
            whole = operator.index(tag)
        except TypeError:
            raise ValueError(f"a tag is a whole number below 2^64, and {tag!r} is none") from None
        if not 0 <= whole <= _MOST:
            raise ValueError(f"a tag is a whole number below 2^64, and {tag!r} is none")
        words.append(str(whole))
    if len(words) != count:
        raise ValueError(f"there are {len(words)} tags for {count} rows")
    return words


def radius(given: Any) -> int:
    """Returns a radius as the library takes it. Distances are whole numbers below 2^39, so a fraction is cut off and a greater radius is all."""
    try:
        if not given >= 0:
            raise NoQuery(f"a radius is a number from 0 on, and {given!r} is none")
        return _MOST if given >= 1 << 64 else int(math.floor(given))
    except TypeError:
        raise NoQuery(f"a radius is a number from 0 on, and {given!r} is none") from None


def count(given: Any) -> int:
    """Returns how many of the nearest are asked for, as the library takes it: at least 1."""
    try:
        whole = operator.index(given)
    except TypeError:
        raise NoQuery(f"how many are asked for is a whole number, and {given!r} is none") from None
    if whole < 1:
        raise NoQuery(f"at least 1 of the nearest is to be asked for, and not {whole}")
    return min(whole, _MOST)


def jobs(given: Optional[int]) -> int:
    """Returns how many threads are meant: 1 for None, all processors for -1, all but one for -2, and at most 64."""
    if given is None:
        return 1
    whole = operator.index(given)
    if whole == 0:
        raise ValueError("n_jobs may not be 0: it is a number of threads, or -1 for one on each processor")
    return max(1, min(64, whole if whole > 0 else len(os.sched_getaffinity(0)) + 1 + whole))
