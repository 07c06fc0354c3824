"""What a call answers."""

from __future__ import annotations

from typing import List, NamedTuple, Optional, Tuple


class Hit(NamedTuple):
    """An object that a query is answered with."""

    id: int
    """Its place in the order of acceptance, from 0."""
    distance: int
    """Its distance from the query's point, in the metric of the file."""
    tag: int
    """Its tag."""


class Pair(NamedTuple):
    """Two objects that a join is answered with."""

    left: int
    """The id of the object of the index that was asked."""
    right: int
    """The id of the object of the other index."""
    distance: int
    """How far they are apart."""


class Report(NamedTuple):
    """What an audit, or the judging of logs, says."""

    accepted: bool
    """Whether nothing was rejected."""
    text: str
    """The lines that the program writes."""


class Node(NamedTuple):
    """A node of the tree."""

    level: int
    """Its level. A leaf has 0."""
    entries: int
    """How many entries it has."""
    centre: Optional[Tuple[int, ...]]
    """The point of the entry that names it. The root has none."""
    radius: Optional[int]
    """The radius of the entry that names it. The root has none."""


class Spread(NamedTuple):
    """The least, the middle and the greatest of some numbers. Of two in the middle it is the lower."""

    least: int
    middle: int
    most: int


class Level(NamedTuple):
    """A level of the tree."""

    level: int
    """Its number. The leaves have 0."""
    nodes: int
    """How many nodes it has."""
    entries: Optional[Spread]
    """How many entries they have."""
    radii: Optional[Spread]
    """The radii of their regions. The root has none."""


class Stats(NamedTuple):
    """What is known of an index without its objects."""

    metric: str
    dim: int
    promote: str
    """How a full node chooses its two routing objects."""
    split: str
    """How it deals its entries to them."""
    max_objects: int
    generation: int
    objects: int
    height: int
    """The level of the root."""
    nodes: int
    pages: int
    """How many pages of 4096 bytes the file has."""
    free_pages: int
    """How many of them hold no node, but for the first three."""
    levels: List[Level]
    """The levels, from the root down."""


class Shape(NamedTuple):
    """The tree of an index."""

    height: int
    """The level of the root."""
    objects: int
    """How many objects the tree holds."""
    nodes: List[Node]
    """Its nodes in pre-order, the root first."""
