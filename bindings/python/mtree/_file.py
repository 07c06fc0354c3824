"""An index file that is open: its lock, its map, its head and its live slot."""

from __future__ import annotations

import contextlib
import ctypes
import fcntl
import mmap
import os
import threading
import weakref
from typing import Any, Iterator, NamedTuple, Optional, Tuple

from ._errors import InUse, NoIndex

_PAGE = 4096
_OPEN_GATE = 0xA5
METRICS = ("hamming", "l1", "max", "kendall", "hausdorff", "mixsum", "mixmax", "l1cap")
"""The names of the kinds, from 1 on."""


class State(NamedTuple):
    """What the head and the live slot of a file tell."""

    metric: str
    dim: int
    max_objects: int
    generation: int
    height: int
    objects: int
    pages: int


def read_state(place: Optional[int], size: int) -> State:
    """Reads the head and the live slot of a file's bytes. Raises `NoIndex` with the words that the program writes."""
    if place is None or size < 3 * _PAGE:
        raise NoIndex("fault notindex short")
    held = ctypes.string_at(place, 3 * _PAGE)
    head, slots = held[:_PAGE], [held[_PAGE:2 * _PAGE], held[2 * _PAGE:]]
    kind, dim, most = head[10], head[11], _number(head, 16, 20)
    faults = [
        ("magic", head[:8] != b"MTREEIDX"),
        ("version", head[8:10] != b"\0\2"),
        ("space", not 1 <= kind <= len(METRICS) or not 1 <= dim <= 64 or (kind in (6, 7) and dim % 2 == 1)),
        ("policy", head[12] not in (1, 2) or head[13] not in (1, 2)),
        ("limit", not 1 <= most <= 1 << 24),
        ("tail", any(head[14:16]) or any(head[20:])),
    ]
    opened = [(_number(slot, 8, 16), slot) for slot in slots if slot[0] == _OPEN_GATE]
    faults.append(("unfinished", not opened))
    faults.append(("tworoots", len(opened) == 2 and opened[0][0] == opened[1][0]))
    for name, is_so in faults:
        if is_so:
            raise NoIndex(f"fault notindex {name}")
    generation, slot = max(opened)
    root, height, objects, pages = (_number(slot, first, first + 4) for first in (16, 20, 24, 28))
    if (any(slot[1:8]) or any(slot[32:]) or not 1 <= generation < 1 << 48 or not 3 <= root < pages or height > 14 or objects > most
            or not 4 <= pages <= 1 << 24 or pages * _PAGE > size):
        raise NoIndex("fault notindex slot")
    return State(METRICS[kind - 1], dim, most, generation, height, objects, pages)


def _number(held: bytes, first: int, end: int) -> int:
    return int.from_bytes(held[first:end], "big")


class File:
    """An index file that is open, and mapped within the calls.

    Calls of several threads read it at once, under one shared lock of the system. A call that writes by a child process waits for them, and
    they for it."""

    def __init__(self, path: str) -> None:
        self.path = path
        self.whole_path = os.path.abspath(path)
        """The path for a child process, which stays true where the process goes to another folder."""
        self._handle: Optional[Any] = open(path, "rb", buffering=0)
        self._turn = threading.Condition()
        self._readers = 0
        self._is_written = False
        self._map: Optional[mmap.mmap] = None
        self._held: Optional[Any] = None
        self._seen: Optional[Tuple[int, int]] = None
        _files.add(self)

    def close(self) -> None:
        """Lets go of the file, once no call is running."""
        with self._turn:
            while self._readers or self._is_written:
                self._turn.wait()
            self._unmap()
            if self._handle is not None:
                self._handle.close()
                self._handle = None

    @contextlib.contextmanager
    def reading(self) -> Iterator[Tuple[Any, int]]:
        """Returns the place and the size of the file's bytes. The file is held by a shared lock meanwhile, which all threads' calls share.
        Raises `InUse`, and ValueError where the file is closed."""
        with self._turn:
            while self._is_written:
                self._turn.wait()
            handle = self._opened()
            if self._readers == 0:
                try:
                    fcntl.flock(handle, fcntl.LOCK_SH | fcntl.LOCK_NB)
                except BlockingIOError:
                    raise InUse(f"{self.path} is in use: another process writes it") from None
                try:
                    self._map_anew(handle)
                except BaseException:
                    fcntl.flock(handle, fcntl.LOCK_UN)
                    raise
            self._readers += 1
            held = self._held
        try:
            yield (None, 0) if held is None else (ctypes.addressof(held), len(held))
        finally:
            del held
            with self._turn:
                self._readers -= 1
                if self._readers == 0:
                    if self._handle is not None:
                        fcntl.flock(self._handle, fcntl.LOCK_UN)
                    self._turn.notify_all()

    @contextlib.contextmanager
    def writing(self) -> Iterator[None]:
        """Keeps out the calls of this process that read through this object, so that a child process may write the file."""
        with self._turn:
            while self._is_written:
                self._turn.wait()
            self._opened()
            self._is_written = True
        try:
            with self._turn:
                while self._readers:
                    self._turn.wait()
            yield
        finally:
            with self._turn:
                self._is_written = False
                self._turn.notify_all()

    def bytes_of(self, handle: int) -> Tuple[Any, int, Any]:
        """Returns the place and the size of the bytes of the file that `handle` has open, within `writing`, and what has to live while they are
        read. The file is locked by the caller. The map of this object serves where it is the same file."""
        size, held = os.fstat(handle).st_size, None
        own = self._opened()
        if os.path.sameopenfile(handle, own.fileno()):
            self._map_anew(own)
            held = self._held
        elif size:
            held = (ctypes.c_char * size).from_buffer(mmap.mmap(handle, size, access=mmap.ACCESS_COPY))
        return (None, 0, None) if held is None else (ctypes.addressof(held), size, held)

    def keep_map(self) -> None:
        """Keeps the map after this process wrote the file, within `writing`. A private map shows what the system holds of the file, as long as
        nothing is written to the map itself. So it is only made anew where the size changed."""
        now = os.fstat(self._opened().fileno())
        if self._seen is not None and self._seen[0] == now.st_size:
            self._seen = (now.st_size, now.st_mtime_ns)

    def state(self) -> State:
        """Reads the head and the live slot."""
        with self.reading() as (place, size):
            return read_state(place, size)

    def _opened(self) -> Any:
        if self._handle is None:
            raise ValueError(f"the index {self.path} is closed")
        return self._handle

    def _unmap(self) -> None:
        self._held, self._seen = None, None
        if self._map is not None:
            self._map.close()
            self._map = None

    def _map_anew(self, handle: Any) -> None:
        """Maps the file where it is not mapped, or was changed since."""
        now = os.fstat(handle.fileno())
        seen = (now.st_size, now.st_mtime_ns)
        if seen == self._seen:
            return
        self._unmap()
        if now.st_size:
            # A private map can be handed to ctypes; nothing writes to it, so no page of it is ever copied.
            self._map = mmap.mmap(handle.fileno(), now.st_size, access=mmap.ACCESS_COPY)
            self._held = (ctypes.c_char * now.st_size).from_buffer(self._map)
        self._seen = seen

    def _go_on_in_child(self) -> None:
        """Opens the file once more in a process that was forked: a lock is let go of for all who share the opening."""
        self._turn = threading.Condition()
        self._readers, self._is_written = 0, False
        if self._handle is not None:
            shared, self._handle = self._handle, open(f"/proc/self/fd/{self._handle.fileno()}", "rb", buffering=0)
            shared.close()


_files: "weakref.WeakSet[File]" = weakref.WeakSet()


def _after_fork() -> None:
    for file in list(_files):
        file._go_on_in_child()


os.register_at_fork(after_in_child=_after_fork)
