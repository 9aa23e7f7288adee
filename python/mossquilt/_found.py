"""Which number or matrix of an input a refusal is about: words for its message. The library itself tells the number alone."""
from __future__ import annotations

import math
from typing import Any, Mapping

import numpy as np

from .refusals import Refusal

# The lowest and the highest of each input's numbers.
_LIMITS: dict[str, tuple[int, int]] = {
    "a": (-1_000_000, 1_000_000),
    "b": (-1_000_000, 1_000_000),
    "q": (-1_000, 1_000),
    "d": (1, 256),
    "ps": (0, 1),
    "rotations": (-100_000, 100_000),
    "rotation": (-100_000, 100_000),
    "lattice": (-1_000_000, 1_000_000),
    "lowest": (-1_000_000, 1_000_000),
    "highest": (-1_000_000, 1_000_000),
    "offsets": (-1_000, 1_000),
    "limit": (1, 1_000_000),
}


def points_of(d: Any) -> int:
    """The number of a grid's points, or 0 where d is outside its limits."""
    sides = [int(side) for side in d]
    points = math.prod(sides)
    return points if all(1 <= side <= 256 for side in sides) and points <= 65_536 else 0


def _outside(call: str, given: Mapping[str, Any]) -> str:
    for name, value in given.items():
        lowest, highest = _LIMITS.get(name, (None, None))
        if name == "rotations" and call == "transform_rotations":
            lowest, highest = -100, 100
        if name == "rotations" and len(value) > 192:
            return f"rotations has {len(value)} matrices, and may have 192"
        if lowest is None or highest is None:
            continue
        numbers = np.asarray(value)
        wrong = np.argwhere(~((numbers >= lowest) & (numbers <= highest)))  # a NaN is neither
        if len(wrong):
            place = tuple(int(i) for i in wrong[0])
            where = f"{name}{list(place) if place else ''}"
            return f"{where} is {numbers[place]}, and must be {lowest:,} to {highest:,}"
    if "d" in given:
        d = given["d"]
        points = points_of(d)
        if not points:
            return f"d = {d.tolist()} makes {math.prod(d.tolist()):,} points, and a grid has at most 65,536"
        for name in ("point", "q0"):
            if name in given and not 0 <= given[name] < points:
                return f"{name} is {given[name]}, and the points are 0 to {points - 1}"
    return ""


def _no_group(rotations: Any) -> str:
    places: dict[bytes, int] = {}
    for i, rotation in enumerate(rotations):
        if abs(round(float(np.linalg.det(rotation)))) != 1:
            return f"rotations[{i}] has the determinant {round(float(np.linalg.det(rotation)))}, and must have 1 or -1"
        if places.setdefault(rotation.tobytes(), i) != i:
            return f"rotations[{i}] is rotations[{places[rotation.tobytes()]}] a second time"
    if np.eye(3, dtype=np.int64).tobytes() not in places:
        return "the identity is not among them"
    for i, left in enumerate(rotations):
        for j, right in enumerate(rotations):
            if (left @ right).tobytes() not in places:
                return f"the product of rotations[{i}] and rotations[{j}] is not among them"
    return ""


def _breaks_grid(rotations: Any, d: Any, q: Any) -> str:
    moved = np.linalg.inv(q) @ rotations @ q * d[:, None] / d[None, :]
    broken = np.flatnonzero((np.abs(moved - np.rint(moved)) > 1e-5).any(axis=(1, 2)))
    if not len(broken):
        return ""
    return f"{len(broken)} of {len(rotations)} rotations do not, the first is rotations[{broken[0]}]"


def found(call: str, refusal: Refusal, given: Mapping[str, Any]) -> str:
    """What in the input the refusal is about, or nothing where that cannot be said."""
    if refusal == Refusal.OTHER_GRID or (refusal == Refusal.OUTSIDE_LIMITS and call == "convert_bz_grid"):
        return f"the record is {given['record'].tolist()}"
    if refusal == Refusal.OUTSIDE_LIMITS and call == "class_sheet":
        return "a class number and a weight have at most 6 characters, and an image index 11"
    if refusal == Refusal.OUTSIDE_LIMITS:
        return _outside(call, given)
    if refusal == Refusal.NOT_GROUP and "rotations" in given:
        return _no_group(given["rotations"])
    if refusal == Refusal.SYMMETRY_BROKEN and "rotations" in given:
        return _breaks_grid(given["rotations"], given["d"], given["q"])
    if refusal == Refusal.INVERTED_RANGE:
        place = int(np.flatnonzero(given["lowest"] > given["highest"])[0])
        return f"lowest[{place}] is {given['lowest'][place]} and highest[{place}] is {given['highest'][place]}"
    return ""
