"""The classes of triplets q0 + q1 + q2 = G at a point q0, and a triplet of images for each."""
from __future__ import annotations

from typing import NamedTuple

import numpy as np

from ._found import points_of
from ._library import ArrayLike, Call, Floats, Ints, Out
from .images import Table, parts_of


class TripletClasses(NamedTuple):
    """For each point q1 its class number, with and without swapping, and how many classes there are with it."""

    map_triplets: Ints
    map_q: Ints
    classes: int


class Triplets(NamedTuple):
    """For each class, by rising number: three image indices; 1 where their addresses sum to zero, 0 where none do and the sum is the
    shortest, -1 where a point has no image; the squared length that is left; the cell of the sum.
    """

    triplets: Ints
    left: Ints
    left_length: Floats
    cells: Ints


def _classes(class_map: Ints) -> int:
    return int((class_map == np.arange(len(class_map))).sum())


def ir_triplets_at_q(
    q0: int, d: ArrayLike, rotations: ArrayLike, time_reversal: bool, swappable: bool, *, out: Out = None
) -> TripletClasses:
    """The classes of triplets at the point q0, by the transformed list.

    >>> from mossquilt import ir_triplets_at_q
    >>> ir_triplets_at_q(1, [1, 1, 3], [[[1, 0, 0], [0, 1, 0], [0, 0, 1]]], True, True)
    TripletClasses(map_triplets=array([0, 1, 0]), map_q=array([0, 1, 2]), classes=2)
    """
    call = Call(
        "ir_triplets_at_q", q0=q0, d=d, rotations=rotations, time_reversal=time_reversal, swappable=swappable
    )
    points = (points_of(call.given["d"]),)
    (map_triplets, map_q), (classes,) = call.run(1, out, map_triplets=points, map_q=points)
    return TripletClasses(map_triplets, map_q, classes)


def bz_triplets_at_q(
    q0: int, table: Table, class_map: ArrayLike, d: ArrayLike, q: ArrayLike, lattice: ArrayLike, bz_grid_type: int,
    *, out: Out = None,
) -> Triplets:
    """For each class a triplet of images; q0 is a point for type 1, an image of it for type 2.

    >>> from mossquilt import bz_grid_addresses, bz_triplets_at_q
    >>> one = [[1, 0, 0], [0, 1, 0], [0, 0, 1]]
    >>> table = bz_grid_addresses([1, 1, 3], one, [0, 0, 0], one, 2)
    >>> bz_triplets_at_q(1, table, [0, 1, 0], [1, 1, 3], one, one, 2).triplets.tolist()
    [[1, 0, 2], [1, 1, 1]]
    """
    addresses, map_, _, record = parts_of(table)
    call = Call(
        "bz_triplets_at_q",
        q0=q0, addresses=addresses, map=map_, record=record, class_map=class_map, d=d, q=q, lattice=lattice,
        bz_grid_type=bz_grid_type,
    )
    k = _classes(call.given["class_map"])
    return Triplets(*call.run(0, out, out=(k, 3), left=(k,), left_length=(k,), cells=(k, 3))[0])


def class_sheet(class_map: ArrayLike, triplets: ArrayLike) -> str:
    """The sheet of a finished list: a line for each class with its number, its weight and its triplet.

    >>> from mossquilt import class_sheet
    >>> print(class_sheet([0, 1, 0], [[1, 0, 2], [1, 1, 1]]), end="")
                                                1
         0     2          1          0          2
         1     1          1          1          1
    """
    call = Call("class_sheet", class_map=class_map, triplets=triplets)
    k = _classes(call.given["class_map"])
    if len(call.given["triplets"]) != k:
        raise ValueError(f"triplets has {len(call.given['triplets'])} rows, and class_map {k} classes; give a row for each class")
    (sheet,), _ = call.run(0, None, sheet=(46 * (k + (k + 39) // 40),))
    return bytes(sheet.astype(np.uint8)).decode("ascii")
