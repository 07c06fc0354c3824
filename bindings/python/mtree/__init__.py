"""Exact search by likeness over points of whole numbers, in an index file of mtree.

    import mtree
    index = mtree.Index.from_array("colours.mt", [[255, 0, 0], [250, 8, 4], [0, 0, 255]], metric="l1")
    for hit in index.nearest([252, 9, 6], 2):
        print(hit.id, hit.distance)

`Index` is one index file. `MTreeNeighbors` stands where scikit-learn's `NearestNeighbors` stands. `prove` judges carried logs without the
file.

The answers are those of the proved library `libmtree.so`, or of the proved program `mtree`: on a sound file those of a plain scan of its
objects. The library is the file beside this module, or the one that the variable MTREE_LIBRARY names. The program, a child process, makes
an index, and fills it where the library is not there. It is `mtree_cli` beside this module, the one that a clone has built, the one that the variable MTREE_PROGRAM
names, or `mtree` where the shell finds it.

Where only the program is there, queries start it too. Logs, `audit`, `verify`, `check`, `show`, `explain` and `prove` need the library, and
raise `NoLibrary` without it. Arrays need numpy. Without it lists work.

All but the calls into the library and the program is tested, not proved."""

import os as _os

from . import _library, _program
from ._answers import Hit, Level, Node, Pair, Report, Shape, Spread, Stats
from ._errors import Damaged, Error, InUse, NoIndex, NoLibrary, NoQuery, NotFitted, Refused, Rejected, Stopped, TooLong
from ._index import Index, prove
from ._neighbors import MTreeNeighbors

__all__ = ["Index", "MTreeNeighbors", "prove", "Hit", "Pair", "Node", "Shape", "Level", "Spread", "Stats", "Report", "Error", "NoLibrary",
           "InUse", "NoIndex", "NoQuery", "Damaged", "TooLong", "Rejected", "Refused", "Stopped", "NotFitted"]
__version__ = "0.4.0"

if not _library.is_here() and (_os.environ.get("MTREE_LIBRARY") or not _program.is_here()):
    raise ImportError(f"mtree needs its library or its program. The library is not there: {_library.reason}. Run bindings/build, or name it in "
                      "MTREE_LIBRARY. For the program run ./mtree, or name it in MTREE_PROGRAM.")
