"""The images of the points: their tables, and what is read off these."""
from __future__ import annotations

from typing import NamedTuple

import numpy as np

from ._found import points_of
from ._library import ArrayLike, Call, Ints, Out


class Table(NamedTuple):
    """The image table of a grid: the address and the point of each image, the map that tells where a point's images stand, and the
    record of the grid, d0 d1 d2 ps0 ps1 ps2 type, which belongs to the table in files too.
    """

    addresses: Ints
    map: Ints
    grg: Ints
    record: Ints

    def images_of(self, point: int) -> list[int]:
        """The places of a point's images.

        >>> from mossquilt import bz_grid_addresses
        >>> one = [[1, 0, 0], [0, 1, 0], [0, 0, 1]]
        >>> bz_grid_addresses([2, 1, 1], one, [0, 0, 0], one, 2).images_of(1)
        [1, 2]
        """
        points = points_of(self.record[:3])
        if not 0 <= point < points:
            raise IndexError(f"point is {point}, and the points are 0 to {points - 1}")
        if self.record[6] == 2:
            return list(range(int(self.map[point]), int(self.map[point + 1])))
        extra = self.map[8 * points + point : 8 * points + point + 2]
        return [point, *range(points + int(extra[0]), points + int(extra[1]))]


class Sizes(NamedTuple):
    """The places that the addresses, the map and the grg of a table have: 3·M, the map's length and M for M images."""

    addresses: int
    map: int
    grg: int


class Rotated(NamedTuple):
    """The image at the rotated address; where there is none, a fallback (include/zone.h says which)."""

    image: int
    is_fallback: bool


class RotatedMany(NamedTuple):
    """The same of many images; fallbacks are 1."""

    images: Ints
    fallbacks: Ints


def parts_of(table: Table) -> Table:
    """The table, where it is one."""
    if not isinstance(table, tuple) or len(table) != 4:
        way = "give what bz_grid_addresses makes, or Table(addresses, map, grg, record)"
        raise TypeError(f"table is a {type(table).__name__}; {way}")
    return Table(*table)


def _table(call: Call, sizes: Sizes, out: Out) -> Table:
    (addresses, map_, grg), told = call.run(
        10, out, addresses=(sizes.addresses // 3, 3), map=(sizes.map,), grg=(sizes.grg,)
    )
    return Table(addresses, map_, grg, _record(told))


def _record(told: list[int]) -> Ints:
    return np.array(told[3:], np.int64)


def bz_grid_sizes(d: ArrayLike, q: ArrayLike, ps: ArrayLike, lattice: ArrayLike, bz_grid_type: int) -> Sizes:
    """The lengths of a table, before it is made.

    >>> from mossquilt import bz_grid_sizes
    >>> one = [[1, 0, 0], [0, 1, 0], [0, 0, 1]]
    >>> bz_grid_sizes([2, 1, 1], one, [0, 0, 0], one, 2)
    Sizes(addresses=9, map=3, grg=3)
    """
    return Sizes(*Call("bz_grid_sizes", d=d, q=q, ps=ps, lattice=lattice, bz_grid_type=bz_grid_type).run(3)[1])


def bz_grid_addresses(
    d: ArrayLike, q: ArrayLike, ps: ArrayLike, lattice: ArrayLike, bz_grid_type: int, *, out: Out = None
) -> Table:
    """The image table of a grid, in outputs of the lengths that bz_grid_sizes tells first.

    >>> from mossquilt import bz_grid_addresses
    >>> one = [[1, 0, 0], [0, 1, 0], [0, 0, 1]]
    >>> table = bz_grid_addresses([2, 1, 1], one, [0, 0, 0], one, 2)
    >>> table.addresses.tolist(), table.map, table.grg
    ([[0, 0, 0], [-1, 0, 0], [1, 0, 0]], array([0, 1, 3]), array([0, 1, 1]))
    """
    sizes = bz_grid_sizes(d, q, ps, lattice, bz_grid_type)
    return _table(Call("bz_grid_addresses", d=d, q=q, ps=ps, lattice=lattice, bz_grid_type=bz_grid_type), sizes, out)


def bz_grid_fill(
    d: ArrayLike, q: ArrayLike, ps: ArrayLike, lattice: ArrayLike, bz_grid_type: int, sizes: ArrayLike, *, out: Out = None
) -> Table:
    """The same table, by its sizes; any others are refused.

    >>> from mossquilt import bz_grid_fill
    >>> one = [[1, 0, 0], [0, 1, 0], [0, 0, 1]]
    >>> bz_grid_fill([2, 1, 1], one, [0, 0, 0], one, 2, [9, 3, 3]).record
    array([2, 1, 1, 0, 0, 0, 2])
    """
    call = Call("bz_grid_fill", d=d, q=q, ps=ps, lattice=lattice, bz_grid_type=bz_grid_type, sizes=sizes)
    asked = Sizes(*(int(size) for size in call.given["sizes"]))
    points = points_of(call.given["d"])
    can_be = asked.addresses == 3 * asked.grg and points <= asked.grg and asked.map in (points + 1, 9 * points + 1)
    if can_be and asked.grg > 8 * points:  # far more than is usual: not to make room in vain
        can_be = asked == bz_grid_sizes(d, q, ps, lattice, bz_grid_type)
    if not can_be:  # in any room refused
        lent = [np.size(array) for array in out] if out is not None and len(out) == 3 else [3, 1, 1]
        asked = Sizes(*lent)
    return _table(call, asked, out)


def mark_candidates(
    d: ArrayLike, q: ArrayLike, ps: ArrayLike, lowest: ArrayLike, highest: ArrayLike, point: int, *, out: Out = None
) -> Ints:
    """Which of 125 addresses of a point are the shortest whatever the cell is, of which inner products are known within ranges:
    1 nearest for certain, 2 beaten for certain, 0 open.

    marks[i, j, k] is of the candidate whose numbers are the i-th, j-th and k-th of 0, 1, 2, -2, -1.

    >>> from mossquilt import mark_candidates
    >>> one = [[1, 0, 0], [0, 1, 0], [0, 0, 1]]
    >>> marks = mark_candidates([3, 3, 3], one, [0, 0, 0], [90, -5, -5, 90, -5, 90], [110, 5, 5, 110, 5, 110], 0)
    >>> int(marks[0, 0, 0]), int((marks == 2).sum())
    (1, 124)
    """
    call = Call("mark_candidates", d=d, q=q, ps=ps, lowest=lowest, highest=highest, point=point)
    (marks,), _ = call.run(0, out, marks=(5, 5, 5))
    return marks


def rotate_bz_grid_index(
    index: int, rotation: ArrayLike, table: Table, d: ArrayLike, ps: ArrayLike, bz_grid_type: int
) -> Rotated:
    """Where a rotation of the transformed list carries an image of a table.

    >>> from mossquilt import bz_grid_addresses, rotate_bz_grid_index
    >>> one = [[1, 0, 0], [0, 1, 0], [0, 0, 1]]
    >>> table = bz_grid_addresses([2, 1, 1], one, [0, 0, 0], one, 2)
    >>> rotate_bz_grid_index(1, [[-1, 0, 0], [0, 1, 0], [0, 0, 1]], table, [2, 1, 1], [0, 0, 0], 2)
    Rotated(image=2, is_fallback=False)
    """
    addresses, map_, _, record = parts_of(table)
    call = Call(
        "rotate_bz_grid_index",
        index=index, rotation=rotation, addresses=addresses, map=map_, record=record, d=d, ps=ps, bz_grid_type=bz_grid_type,
    )
    image, fallback = call.run(2)[1]
    return Rotated(image, fallback == 1)


def rotate_bz_grid_indices(
    indices: ArrayLike, rotation: ArrayLike, table: Table, d: ArrayLike, ps: ArrayLike, bz_grid_type: int, *, out: Out = None
) -> RotatedMany:
    """The same of many images by one rotation.

    >>> from mossquilt import bz_grid_addresses, rotate_bz_grid_indices
    >>> one = [[1, 0, 0], [0, 1, 0], [0, 0, 1]]
    >>> table = bz_grid_addresses([2, 1, 1], one, [0, 0, 0], one, 2)
    >>> rotate_bz_grid_indices([0, 1, 2], [[-1, 0, 0], [0, 1, 0], [0, 0, 1]], table, [2, 1, 1], [0, 0, 0], 2)
    RotatedMany(images=array([0, 2, 1]), fallbacks=array([0, 0, 0]))
    """
    addresses, map_, _, record = parts_of(table)
    call = Call(
        "rotate_bz_grid_indices",
        indices=indices, rotation=rotation, addresses=addresses, map=map_, record=record, d=d, ps=ps, bz_grid_type=bz_grid_type,
    )
    places = (len(call.given["indices"]),)
    return RotatedMany(*call.run(0, out, out=places, fallbacks=places)[0])


def neighboring_grid_points(
    points: ArrayLike, offsets: ArrayLike, table: Table, d: ArrayLike, bz_grid_type: int, *, out: Out = None
) -> Ints:
    """The neighbours of images: a row for each image, and in it one for each offset of addresses.

    >>> from mossquilt import bz_grid_addresses, neighboring_grid_points
    >>> one = [[1, 0, 0], [0, 1, 0], [0, 0, 1]]
    >>> table = bz_grid_addresses([2, 1, 1], one, [0, 0, 0], one, 2)
    >>> neighboring_grid_points([0, 2], [[0, 0, 0], [-1, 0, 0]], table, [2, 1, 1], 2).tolist()
    [[0, 1], [2, 0]]
    """
    addresses, map_, _, record = parts_of(table)
    call = Call(
        "neighboring_grid_points",
        points=points, offsets=offsets, addresses=addresses, map=map_, record=record, d=d, bz_grid_type=bz_grid_type,
    )
    (made,), _ = call.run(0, out, out=(len(call.given["points"]), len(call.given["offsets"])))
    return made


def convert_bz_grid(table: Table, *, out: Out = None) -> Table:
    """The table of the other type, with the same images. `out` has room for as many images as the table, and the other map.

    >>> from mossquilt import bz_grid_addresses, convert_bz_grid
    >>> one = [[1, 0, 0], [0, 1, 0], [0, 0, 1]]
    >>> sparse = bz_grid_addresses([2, 1, 1], one, [0, 0, 0], one, 1)
    >>> convert_bz_grid(sparse).map
    array([0, 1, 3])
    """
    addresses, map_, grg, record = parts_of(table)
    call = Call("convert_bz_grid", record=record, addresses=addresses, map=map_, grg=grg)
    images = len(call.given["addresses"])
    points, other = points_of(call.given["record"][:3]), 3 - int(call.given["record"][6])
    map_length = 9 * points + 1 if other == 1 else points + 1
    (addresses, map_, grg), told = call.run(10, out, out_addresses=(images, 3), out_map=(map_length,), out_grg=(images,))
    return Table(addresses[: told[2]], map_, grg[: told[2]], _record(told))
