"""What a call raises."""

from __future__ import annotations

from typing import Any, List, Tuple


class Error(Exception):
    """A call has no answer. The words are the program's where the program or the library refused."""


class NoLibrary(Error, ImportError):
    """The call needs the library libmtree.so, and it is not there."""


class InUse(Error):
    """Another process writes the file, or reads it where the call would write."""


class NoIndex(Error):
    """The file is no index of version 2."""


class NoQuery(Error, ValueError):
    """A point is not of the file's space, or a radius or a count is not what it may be."""


class Damaged(Error):
    """The search came to a damaged page of a file that is not sound. The words are those of the file's audit."""


class TooLong(Error):
    """There are more than 2^30 bytes of logs, or more pages than the call takes."""


class Rejected(Error, ValueError):
    """The program rejected the file, a log, or a second file of another space. The words are the program's."""


class NotFitted(Error, ValueError, AttributeError):
    """A `MTreeNeighbors` was asked before `fit`."""


class _Partly(Error):
    """Some rows were added. `ids` are theirs."""

    def __init__(self, words: str, row: int, ids: List[int]) -> None:
        super().__init__(words)
        self.row = row
        self.ids = ids

    def __reduce__(self) -> Tuple[Any, ...]:
        return type(self), (str(self), self.row, self.ids)


class Refused(_Partly, ValueError):
    """A row was refused. `row` is its number in what was handed in, from 0. `ids` are those of the rows that were added."""


class Stopped(_Partly):
    """A write failed, or the program ended, before all rows were done. `row` is the number of the first row without an answer, from 0. `ids`
    are those of the rows whose addition was acknowledged. The row `row` itself may have been added too. `__cause__` says why it stopped."""
