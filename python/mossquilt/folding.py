"""The whole chain in one call: from a crystal and a grid to the classes and triplets at a point."""
from __future__ import annotations

from dataclasses import dataclass
from typing import Any, Optional, Union

import numpy as np

from ._library import ArrayLike, Floats, Ints
from .forms import Snf, snf3x3
from .grids import all_grid_addresses, grid_index_from_address, ir_grid_map
from .images import Table, bz_grid_addresses
from .rotations import reciprocal_group, transform_rotations
from .triplets import bz_triplets_at_q, ir_triplets_at_q

_NO_SHIFT = np.zeros(3, np.int64)


@dataclass(frozen=True)
class Fold:
    """What `fold` makes, for N points, M images, and k classes by rising number."""

    lattice: Floats  #: the reciprocal basis vectors, in columns
    grid_matrix: Ints  #: a: the points are the q for which a·q is whole
    snf: Snf  #: p·a·q = diag(d)
    rotations: Ints  #: the transformed list, which acts on addresses
    q0: int  #: the point
    points: Ints  #: (N, 3): the address of each point
    q_vectors: Floats  #: (N, 3): its q, in units of the reciprocal basis vectors
    classes: Ints  #: (N,): the class of each point q1, as the lowest point of the class
    numbers: Ints  #: (k,): the lowest point of each class
    weights: Ints  #: (k,): how many points it has
    images: Table  #: M images, and where those of each point stand
    triplets: Ints  #: (k, 3): images of q0, q1 and q2 for each class
    left: Ints  #: (k,): 1 where the three addresses sum to zero, else 0
    left_length: Floats  #: (k,): the squared length of the sum that is left
    cells: Ints  #: (k, 3): the cell of the sum, which is d times it; G = q·cell
    map_q: Ints  #: (N,): the classes without swapping
    point_classes: Ints  #: (N,): the classes of the points by all rotations, whatever q0 is

    def q_of(self, addresses: ArrayLike) -> Floats:
        """The q of addresses, as those of images, in units of the reciprocal basis vectors.

        >>> import numpy as np
        >>> from mossquilt import fold
        >>> made = fold(cell=np.eye(3), rotations=[np.eye(3, dtype=int)], grid_matrix=(3, 1, 1), q0=1)
        >>> made.q_of(made.images.addresses[made.triplets[0]]).round(3).tolist()
        [[0.333, 0.0, 0.0], [0.0, 0.0, 0.0], [-0.333, 0.0, 0.0]]
        """
        q: Floats = np.asarray(addresses) / self.snf.d @ self.snf.q.T
        return q

    def point_of(self, q: ArrayLike) -> int:
        """The point of a q, in units of the reciprocal basis vectors.

        >>> import numpy as np
        >>> from mossquilt import fold
        >>> fold(cell=np.eye(3), rotations=[np.eye(3, dtype=int)], grid_matrix=(3, 1, 1)).point_of([2 / 3, 0, 0])
        2
        """
        return _point_of(q, self.grid_matrix, self.snf)

    def members_of(self, number: int) -> Ints:
        """The points of a class.

        >>> import numpy as np
        >>> from mossquilt import fold
        >>> fold(cell=np.eye(3), rotations=[np.eye(3, dtype=int)], grid_matrix=(3, 1, 1), q0=1).members_of(0)
        array([0, 2])
        """
        return np.flatnonzero(self.classes == number)


def _point_of(q: ArrayLike, a: Ints, snf: Snf) -> int:
    vector = np.asarray(q)
    if vector.shape != (3,) or vector.dtype.kind not in "iuf":
        raise ValueError(f"q has the shape {vector.shape} and the dtype {vector.dtype}; give three real numbers")
    whole = a @ vector
    if not np.isfinite(whole).all() or np.abs(whole - np.rint(whole)).max() > 1e-5 or np.abs(whole).max() > 2**31:
        raise ValueError(f"q = {vector.tolist()} is no point of the grid: grid_matrix·q is {whole.tolist()}; give a q that makes it whole")
    return grid_index_from_address(snf.p @ np.rint(whole).astype(np.int64), snf.d).point


def _matrix_of(name: str, value: Any) -> Any:
    array = np.asarray(value)
    if array.shape == (3,):
        return np.diag(array)
    if array.shape != (3, 3):
        raise ValueError(f"{name} has the shape {array.shape}; give three whole numbers for a mesh, or a (3, 3) matrix by rows")
    return array


def _real(name: str, value: Any, what: str) -> Floats:
    array = np.asarray(value)
    if array.shape != (3, 3):
        raise ValueError(f"{name} has the shape {array.shape}, and must have (3, 3): {what}")
    if array.dtype.kind not in "iuf":
        raise TypeError(f"{name} has the dtype {array.dtype}; give real numbers: {name}.astype(np.float64)")
    matrix: Floats = array.astype(np.float64)
    if not np.isfinite(matrix).all():
        row, column = np.argwhere(~np.isfinite(matrix))[0]
        raise ValueError(f"{name}[{row}, {column}] is {matrix[row, column]}; give finite numbers: {what}")
    if np.linalg.det(matrix) == 0:
        raise ValueError(f"{name} has the determinant 0; give three vectors that are not in one plane: {what}")
    return matrix


def _lattice_of(cell: Any, lattice: Any) -> Floats:
    if (cell is None) == (lattice is None):
        raise TypeError("give either cell, whose rows are a1, a2, a3, or lattice, whose columns are b1, b2, b3")
    if lattice is not None:
        return _real("lattice", lattice, "the reciprocal basis vectors b1, b2, b3 are its columns")
    made: Floats = np.linalg.inv(_real("cell", cell, "the basis vectors a1, a2, a3 are its rows"))
    return made


def _test_lengths(lattice: Floats, rotations: Any) -> None:
    """That the rotations are those of this lattice, up to a hundredth: they keep the lengths of its vectors."""
    products = lattice.T @ lattice
    turned = rotations @ products @ rotations.transpose(0, 2, 1)
    lengths = np.sqrt(np.diag(products))
    off = np.abs((turned - products) / np.outer(lengths, lengths)).max(axis=(1, 2))
    if off.max() > 0.01:
        raise ValueError(
            f"rotations: {int((off > 0.01).sum())} of {len(off)} do not keep the lengths of the lattice; give cell with a1, a2, a3 in "
            "rows, or lattice with b1, b2, b3 in columns, and the rotations of that basis"
        )


def fold(
    *,
    cell: Optional[ArrayLike] = None,
    lattice: Optional[ArrayLike] = None,
    rotations: ArrayLike,
    grid_matrix: ArrayLike,
    q0: Union[int, ArrayLike] = 0,
    time_reversal: bool = True,
    swappable: bool = True,
    bz_grid_type: int = 2,
) -> Fold:
    """Folds a grid of q by the rotations of a crystal, and lists the classes of triplets q0 + q1 + q2 = G.

    cell           the basis vectors a1, a2, a3 in rows, as in a POSCAR or in phonopy; or else
    lattice        the reciprocal ones b1, b2, b3 in columns
    rotations      those of direct space in that basis, each once: np.unique of what spglib gives
    grid_matrix    three numbers for a mesh, or a matrix a: the points are the q for which a·q is whole
    q0             a point, by its number or by its three coordinates
    time_reversal  whether q and -q are equivalent
    swappable      whether q1 and q2 may change places
    bz_grid_type   1 (sparse) or 2 (dense), of the image table

    The grid is not shifted. The basis is best a reduced one; see include/zone.h for all that the library asks.

    >>> import numpy as np
    >>> from mossquilt import fold
    >>> made = fold(cell=np.eye(3), rotations=[np.eye(3, dtype=int)], grid_matrix=(3, 1, 1), q0=[1 / 3, 0, 0])
    >>> made.q0, made.classes, made.weights, made.triplets.tolist()
    (1, array([0, 1, 0]), array([2, 1]), [[1, 0, 2], [1, 1, 1]])
    """
    b = _lattice_of(cell, lattice)
    a = _matrix_of("grid_matrix", grid_matrix)
    snf = snf3x3(a)
    reciprocal = reciprocal_group(rotations, time_reversal)
    _test_lengths(b, np.asarray(rotations))
    moved = transform_rotations(reciprocal, snf.d, snf.q)
    point = q0 if isinstance(q0, (int, np.integer)) else _point_of(q0, a, snf)
    map_triplets, map_q, _ = ir_triplets_at_q(int(point), snf.d, moved, time_reversal, swappable)
    images = bz_grid_addresses(snf.d, snf.q, _NO_SHIFT, b, bz_grid_type)
    start = int(point) if bz_grid_type == 1 else int(images.map[point])
    triplets, left, left_length, cells = bz_triplets_at_q(start, images, map_triplets, snf.d, snf.q, b, bz_grid_type)
    points = all_grid_addresses(snf.d)
    numbers, weights = np.unique(map_triplets, return_counts=True)
    return Fold(
        lattice=b,
        grid_matrix=np.asarray(a, np.int64),
        snf=snf,
        rotations=moved,
        q0=int(point),
        points=points,
        q_vectors=points / snf.d @ snf.q.T,
        classes=map_triplets,
        numbers=numbers,
        weights=weights,
        images=images,
        triplets=triplets,
        left=left,
        left_length=left_length,
        cells=cells,
        map_q=map_q,
        point_classes=ir_grid_map(moved, snf.d, _NO_SHIFT).map,
    )
