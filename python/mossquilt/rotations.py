"""The rotations of a crystal: as they act on q, and as they act on addresses."""
from __future__ import annotations

from ._library import ArrayLike, Call, Ints, Out

_GROUP = (432,)  # room for 48 matrices


def _reciprocal(call: Call, out: Out) -> Ints:
    (made,), (count,) = call.run(1, out, out=_GROUP)
    return made[: 9 * count].reshape(count, 3, 3)


def reciprocal_group(rotations: ArrayLike, time_reversal: bool, *, out: Out = None) -> Ints:
    """The reciprocal list of a group of direct-space rotations, as spglib gives them: each transposed and, under time reversal,
    their negatives, unless the inversion is among them. `out` has 432 places; the list is the first of them.

    >>> from mossquilt import reciprocal_group
    >>> reciprocal_group([[[1, 0, 0], [0, 1, 0], [0, 0, 1]]], True).tolist()
    [[[1, 0, 0], [0, 1, 0], [0, 0, 1]], [[-1, 0, 0], [0, -1, 0], [0, 0, -1]]]
    """
    return _reciprocal(Call("reciprocal_group", rotations=rotations, time_reversal=time_reversal), out)


def reciprocal_rotations(rotations: ArrayLike, time_reversal: bool, *, out: Out = None) -> Ints:
    """The same of any list, of which each rotation is taken once.

    >>> from mossquilt import reciprocal_rotations
    >>> reciprocal_rotations([[[0, 1, 0], [0, 0, 1], [1, 0, 0]]] * 2, False).tolist()
    [[[0, 0, 1], [1, 0, 0], [0, 1, 0]]]
    """
    return _reciprocal(Call("reciprocal_rotations", rotations=rotations, time_reversal=time_reversal), out)


def reciprocal_point_group(rotations: ArrayLike, time_reversal: bool, transpose: bool, *, out: Out = None) -> Ints:
    """The same of any list, transposed only if asked for.

    >>> from mossquilt import reciprocal_point_group
    >>> reciprocal_point_group([[[0, 1, 0], [0, 0, 1], [1, 0, 0]]], False, False).tolist()
    [[[0, 1, 0], [0, 0, 1], [1, 0, 0]]]
    """
    call = Call("reciprocal_point_group", rotations=rotations, time_reversal=time_reversal, transpose=transpose)
    return _reciprocal(call, out)


def transform_rotations(rotations: ArrayLike, d: ArrayLike, q: ArrayLike, *, out: Out = None) -> Ints:
    """The transformed list, which acts on addresses: d·q⁻¹·R·q·d⁻¹ for each R of the reciprocal list.

    >>> from mossquilt import reciprocal_group, snf3x3, transform_rotations
    >>> grid = snf3x3([[2, 0, 0], [0, 2, 0], [0, 0, 1]])
    >>> exchange = [[[1, 0, 0], [0, 1, 0], [0, 0, 1]], [[0, 1, 0], [1, 0, 0], [0, 0, 1]]]
    >>> grid.d, transform_rotations(reciprocal_group(exchange, False), grid.d, grid.q)[1].tolist()
    (array([1, 2, 2]), [[1, 0, 0], [0, 0, 1], [0, 1, 0]])
    """
    call = Call("transform_rotations", rotations=rotations, d=d, q=q)
    (made,), _ = call.run(0, out, out=call.given["rotations"].shape)
    return made
