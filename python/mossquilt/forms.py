"""Matrices of a grid: a diagonal, the Smith form, the Hermite form, and which matrices make the same grid."""
from __future__ import annotations

from typing import NamedTuple

from ._library import ArrayLike, Call, Ints, Out


class Snf(NamedTuple):
    """p·a·q = diag(d), with det p = 1 and det q = 1 or -1, found in so many rounds."""

    d: Ints
    p: Ints
    q: Ints
    rounds: int


class Smith(NamedTuple):
    """p·a·q = diag(d), where d[0] divides d[1] and d[1] divides d[2]."""

    d: Ints
    p: Ints
    q: Ints


class WorstPair(NamedTuple):
    """Two numbers, and how often the extended gcd divides on them."""

    first: int
    second: int
    divisions: int


def snf3x3(a: ArrayLike, *, out: Out = None) -> Snf:
    """Makes the matrix of a grid diagonal; d need not be the Smith form.

    >>> from mossquilt import snf3x3
    >>> made = snf3x3([[2, 0, 0], [0, 2, 0], [0, 0, 3]])
    >>> made.d, made.rounds
    (array([2, 1, 6]), 1)
    """
    (d, p, q), (rounds,) = Call("snf3x3", a=a).run(1, out, d=(3,), p=(3, 3), q=(3, 3))
    return Snf(d, p, q, rounds)


def smith3x3(a: ArrayLike, *, out: Out = None) -> Smith:
    """The Smith form; its d is the only diagonal of the kind.

    >>> from mossquilt import smith3x3
    >>> smith3x3([[2, 0, 0], [0, 2, 0], [0, 0, 3]]).d
    array([1, 2, 6])
    """
    (d, p, q), _ = Call("smith3x3", a=a).run(0, out, d=(3,), p=(3, 3), q=(3, 3))
    return Smith(d, p, q)


def hermite3x3(a: ArrayLike, *, out: Out = None) -> Ints:
    """The Hermite form, which matrices of the same grid share.

    >>> from mossquilt import hermite3x3
    >>> hermite3x3([[0, -7, 4], [3, 8, -1], [-2, 5, 9]])
    array([[  1,   0, 229],
           [  0,   1, 213],
           [  0,   0, 299]])
    """
    (h,), _ = Call("hermite3x3", a=a).run(0, out, h=(3, 3))
    return h


def order_forms(g: ArrayLike, h: ArrayLike) -> int:
    """0 if the form g comes before h, 1 if they are equal, 2 if g comes after h.

    >>> from mossquilt import order_forms
    >>> order_forms([[1, 0, 0], [0, 1, 0], [0, 0, 2]], [[1, 0, 0], [0, 2, 0], [0, 0, 1]])
    0
    """
    return Call("order_forms", g=g, h=h).run(1)[1][0]


def same_grid(a: ArrayLike, b: ArrayLike) -> bool:
    """Whether a and b make the same grid.

    >>> from mossquilt import same_grid
    >>> same_grid([[2, 0, 0], [0, 2, 0], [0, 0, 3]], [[2, 0, 0], [0, 2, 0], [2, 0, 3]])
    True
    """
    return Call("same_grid", a=a, b=b).run(1)[1][0] == 1


def worst_pair(limit: int) -> WorstPair:
    """The pair of numbers up to `limit` on which the extended gcd divides most often.

    >>> from mossquilt import worst_pair
    >>> worst_pair(20)
    WorstPair(first=8, second=13, divisions=6)
    """
    return WorstPair(*Call("worst_pair", limit=limit).run(3)[1])
