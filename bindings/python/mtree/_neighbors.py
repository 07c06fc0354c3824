"""The class `MTreeNeighbors`."""

from __future__ import annotations

import importlib
import os
import shutil
import tempfile
import weakref
from typing import Any, Dict, Optional, Tuple

from . import _points
from ._errors import NoQuery, NotFitted
from ._index import Index

_OTHER_NAMES = {"manhattan": "l1", "cityblock": "l1", "chebyshev": "max"}


class MTreeNeighbors:
    """Finds neighbours among the rows of an array, exactly, as scikit-learn's `NearestNeighbors` does, over whole numbers.

    `metric` is a metric of mtree, or scikit-learn's name of one: manhattan or cityblock for l1, chebyshev for max. The metric hamming counts
    the places that differ, where scikit-learn's tells their share. Distances and ids are int64. Neighbours stand by distance, then by id. The
    data of a graph is float64.

    `fit` makes an index in a temporary folder. The folder is removed with the object, with the next `fit`, and at the end of Python.

    It needs numpy, and scipy for the graphs. It keeps no link to scikit-learn, and `sklearn.base.clone` takes it."""

    n_features_in_: int
    n_samples_fit_: int
    effective_metric_: str

    def __init__(self, *, n_neighbors: int = 5, radius: float = 1.0, metric: str = "l1", n_jobs: Optional[int] = None) -> None:
        """Keeps the parameters. `n_neighbors` and `radius` hold where a call names no other. `n_jobs` is how many threads search: None is 1,
        and -1 is one on each processor."""
        self.n_neighbors = n_neighbors
        self.radius = radius
        self.metric = metric
        self.n_jobs = n_jobs

    def get_params(self, deep: bool = True) -> Dict[str, Any]:
        """Returns the parameters. `deep` changes nothing."""
        return {"n_neighbors": self.n_neighbors, "radius": self.radius, "metric": self.metric, "n_jobs": self.n_jobs}

    def set_params(self, **params: Any) -> "MTreeNeighbors":
        """Sets parameters. Raises ValueError where there is none of a name."""
        for name, value in params.items():
            if name not in self.get_params():
                raise ValueError(f"MTreeNeighbors has no parameter {name!r}: it has {', '.join(self.get_params())}")
            setattr(self, name, value)
        return self

    def fit(self, X: Any, y: Any = None) -> "MTreeNeighbors":
        """Makes the index of the rows `X`, an array or a list of the shape (n_samples, n_features). `y` is not used.

        Raises ValueError where `X` holds no rows, or a number that is no whole number from 0 to 4294967295, and where the metric is none."""
        numpy = _numpy()
        rows = _whole(numpy, X)
        if not len(rows):
            raise ValueError("X holds no rows")
        metric = _OTHER_NAMES.get(self.metric, self.metric)
        self._let_go()
        room = tempfile.mkdtemp(prefix="mtree-")
        try:
            index = Index.from_array(os.path.join(room, "rows.mt"), rows, metric=metric, workers=_points.jobs(self.n_jobs))
        except BaseException:
            shutil.rmtree(room, ignore_errors=True)
            raise
        self._rows, self._index = rows, index
        self._end = weakref.finalize(self, _remove, index, room, os.getpid())
        self.n_samples_fit_, self.n_features_in_ = rows.shape
        self.effective_metric_ = metric
        return self

    def kneighbors(self, X: Any = None, n_neighbors: Optional[int] = None, return_distance: bool = True) -> Any:
        """Finds the `n_neighbors` nearest rows of each row of `X`, which has the shape (n_queries, n_features).

        Returns `(distances, ids)` of the shape (n_queries, n_neighbors), or the ids where `return_distance` is false. Where `X` is None, the
        fitted rows are asked for, and none of them is its own neighbour.

        Raises `NotFitted`, and ValueError where there are fewer rows than are asked for."""
        index = self._fitted()
        wanted = _points.count(self.n_neighbors if n_neighbors is None else n_neighbors)
        others = self.n_samples_fit_ - (X is None)
        if wanted > others:
            raise NoQuery(f"n_neighbors is {wanted}, and there are {others} {'other ' if X is None else ''}rows")
        if X is not None:
            return index.kneighbors(self._suited(X), wanted, return_distance, n_jobs=self.n_jobs)
        numpy = _numpy()
        distances, ids = index.kneighbors(self._rows, wanted + 1, n_jobs=self.n_jobs)
        is_other = ids != numpy.arange(len(ids))[:, None]
        # Where the row itself isn't among them, as many equal rows stand before it, and the last one is too many.
        is_other[is_other.all(axis=1), -1] = False
        shape = (len(ids), wanted)
        distances, ids = distances[is_other].reshape(shape), ids[is_other].reshape(shape)
        return (distances, ids) if return_distance else ids

    def radius_neighbors(self, X: Any = None, radius: Optional[float] = None, return_distance: bool = True, sort_results: bool = True) -> Any:
        """Finds all rows within `radius` of each row of `X`, which has the shape (n_queries, n_features).

        Returns `(distances, ids)`, each an array of n_queries arrays, or the ids where `return_distance` is false. Where `X` is None, the
        fitted rows are asked for, and none of them is its own neighbour. They are sorted, whatever `sort_results` is.

        Raises `NotFitted`, and ValueError where `radius` is negative."""
        index = self._fitted()
        reach = self.radius if radius is None else radius
        rows = self._rows if X is None else self._suited(X)
        distances, ids = index.radius_neighbors(rows, reach, n_jobs=self.n_jobs)
        if X is None:
            for number in range(len(ids)):
                is_other = ids[number] != number
                distances[number], ids[number] = distances[number][is_other], ids[number][is_other]
        return (distances, ids) if return_distance else ids

    def kneighbors_graph(self, X: Any = None, n_neighbors: Optional[int] = None, mode: str = "connectivity") -> Any:
        """Returns the graph of `kneighbors` as a `scipy.sparse.csr_matrix` of the shape (n_queries, n_samples).

        An edge has the number 1 where `mode` is "connectivity", and the distance where it is "distance". Raises ImportError without scipy, and
        all that `kneighbors` raises."""
        distances, ids = self.kneighbors(X, n_neighbors)
        numpy = _numpy()
        ends = numpy.arange(len(ids) + 1) * ids.shape[1]
        return self._graph(mode, distances.ravel(), ids.ravel(), ends)

    def radius_neighbors_graph(self, X: Any = None, radius: Optional[float] = None, mode: str = "connectivity", sort_results: bool = True) -> Any:
        """Returns the graph of `radius_neighbors`, as `kneighbors_graph` gives that of `kneighbors`."""
        distances, ids = self.radius_neighbors(X, radius)
        numpy = _numpy()
        ends = numpy.concatenate([[0], numpy.cumsum([len(row) for row in ids], dtype="i8")])
        all_distances, all_ids = (numpy.concatenate([*column, numpy.empty(0, "i8")]) for column in (distances, ids))
        return self._graph(mode, all_distances, all_ids, ends)

    def _graph(self, mode: str, distances: Any, ids: Any, ends: Any) -> Any:
        if mode not in ("connectivity", "distance"):
            raise ValueError(f'mode is "connectivity" or "distance", and not {mode!r}')
        try:
            sparse = importlib.import_module("scipy.sparse")
        except ImportError:
            raise ImportError("a graph of neighbours needs scipy, which is not installed") from None
        data = (_numpy().ones(len(ids)) if mode == "connectivity" else distances).astype("f8")
        return sparse.csr_matrix((data, ids, ends), shape=(len(ends) - 1, self.n_samples_fit_))

    def __sklearn_is_fitted__(self) -> bool:
        return hasattr(self, "_index")

    def __getstate__(self) -> Tuple[Dict[str, Any], Any, str]:
        return self.get_params(), getattr(self, "_rows", None), getattr(self, "effective_metric_", self.metric)

    def __setstate__(self, state: Tuple[Dict[str, Any], Any, str]) -> None:
        params, rows, metric = state
        self.__init__(**{**params, "metric": metric})  # type: ignore[misc]
        if rows is not None:
            self.fit(rows)
        self.metric = params["metric"]

    def __repr__(self) -> str:
        return f"MTreeNeighbors({', '.join(f'{name}={value!r}' for name, value in self.get_params().items())})"

    def _fitted(self) -> Index:
        if not hasattr(self, "_index"):
            raise NotFitted("this MTreeNeighbors has no rows yet: call fit first")
        return self._index

    def _suited(self, X: Any) -> Any:
        rows = _whole(_numpy(), X)
        if rows.shape[1] != self.n_features_in_:
            raise NoQuery(f"X has {rows.shape[1]} features, but MTreeNeighbors is expecting {self.n_features_in_} features as input")
        return rows

    def _let_go(self) -> None:
        """Removes the index of an earlier `fit`."""
        if hasattr(self, "_index"):
            self._end()
            del self._index, self._rows


def _whole(numpy: Any, X: Any) -> Any:
    """Rows as an array of uint32, of two dimensions."""
    if not hasattr(X, "__array__") and not hasattr(X, "__array_interface__"):
        X = numpy.array(X if isinstance(X, (list, tuple)) else list(X), object)
    elif not isinstance(X, numpy.ndarray):
        X = numpy.asarray(X)
    if X.ndim != 2:
        raise NoQuery(f"X is an array of two dimensions, and this one has {X.ndim}")
    return _points.table(X)


def _numpy() -> Any:
    numpy = _points.numpy_or_none()
    if numpy is None:
        raise ImportError("MTreeNeighbors needs numpy, which is not installed")
    return numpy


def _remove(index: Index, room: str, process: int) -> None:
    """Closes the index and removes its folder. A process that was forked leaves it to the first one."""
    index.close()
    if os.getpid() == process:
        shutil.rmtree(room, ignore_errors=True)
