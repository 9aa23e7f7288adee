"""The points of a grid and their classes. The rotations here are the transformed list."""
from __future__ import annotations

from typing import NamedTuple

from ._found import points_of
from ._library import ArrayLike, Call, Ints, Out


class ClassMap(NamedTuple):
    """The class number of each point, and how many classes there are."""

    map: Ints
    classes: int


class Weights(NamedTuple):
    """How many points each class has; the points, class by class; and the places in the list of the rotations that keep the point."""

    weights: Ints
    members: Ints
    keepers: Ints


class Folded(NamedTuple):
    """A point, and the cell that its address lies in."""

    point: int
    cell: tuple[int, int, int]


def ir_grid_map(rotations: ArrayLike, d: ArrayLike, ps: ArrayLike, *, out: Out = None) -> ClassMap:
    """The class map of the points: for a group the lowest point of each point's class.

    >>> from mossquilt import ir_grid_map
    >>> ir_grid_map([[[1, 0, 0], [0, 1, 0], [0, 0, 1]], [[-1, 0, 0], [0, -1, 0], [0, 0, -1]]], [1, 1, 3], [0, 0, 0])
    ClassMap(map=array([0, 1, 1]), classes=2)
    """
    call = Call("ir_grid_map", rotations=rotations, d=d, ps=ps)
    (made,), (classes,) = call.run(1, out, map=(points_of(call.given["d"]),))
    return ClassMap(made, classes)


def class_weights(rotations: ArrayLike, d: ArrayLike, ps: ArrayLike, point: int, *, out: Out = None) -> Weights:
    """The weights and members of these classes by rising number, and the rotations that keep a point.

    `out` has room for N weights, N members and a keeper for each rotation; what is answered are the first of them.

    >>> from mossquilt import class_weights
    >>> class_weights([[[1, 0, 0], [0, 1, 0], [0, 0, 1]], [[-1, 0, 0], [0, -1, 0], [0, 0, -1]]], [1, 1, 3], [0, 0, 0], 0)
    Weights(weights=array([1, 2]), members=array([0, 1, 2]), keepers=array([0, 1]))
    """
    call = Call("class_weights", rotations=rotations, d=d, ps=ps, point=point)
    points = (points_of(call.given["d"]),)
    (weights, members, keepers), (classes, kept) = call.run(
        2, out, weights=points, members=points, keepers=(len(call.given["rotations"]),)
    )
    return Weights(weights[:classes], members, keepers[:kept])


def all_grid_addresses(d: ArrayLike, *, out: Out = None) -> Ints:
    """The address of each point.

    >>> from mossquilt import all_grid_addresses
    >>> all_grid_addresses([2, 1, 2]).tolist()
    [[0, 0, 0], [1, 0, 0], [0, 0, 1], [1, 0, 1]]
    """
    call = Call("all_grid_addresses", d=d)
    (made,), _ = call.run(0, out, out=(points_of(call.given["d"]), 3))
    return made


def grid_index_from_address(address: ArrayLike, d: ArrayLike) -> Folded:
    """The point of an address, and the cell that it lies in.

    >>> from mossquilt import grid_index_from_address
    >>> grid_index_from_address([-3, 7, -11], [2, 3, 5])
    Folded(point=27, cell=(-2, 2, -3))
    """
    point, *cell = Call("grid_index_from_address", address=address, d=d).run(4)[1]
    return Folded(point, (cell[0], cell[1], cell[2]))


def rotate_grid_index(point: int, rotation: ArrayLike, d: ArrayLike, ps: ArrayLike) -> Folded:
    """Where a rotation carries a point, and the cell of the address that it is carried to.

    >>> from mossquilt import rotate_grid_index
    >>> rotate_grid_index(3, [[-1, 0, 0], [0, -1, 0], [0, 0, 1]], [2, 2, 1], [1, 0, 0])
    Folded(point=2, cell=(-1, -1, 0))
    """
    there, *cell = Call("rotate_grid_index", point=point, rotation=rotation, d=d, ps=ps).run(4)[1]
    return Folded(there, (cell[0], cell[1], cell[2]))
