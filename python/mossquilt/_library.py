"""How a call of the proved library is made: what is given is tested, outputs are made or tested, a refusal is raised."""
from __future__ import annotations

import ctypes
import operator
import pathlib
from typing import Any, NamedTuple, Optional, Sequence, Union

import numpy as np
import numpy.typing as npt

from ._found import found
from .refusals import Refusal, Refused

ArrayLike = npt.ArrayLike
Ints = npt.NDArray[np.int64]
Floats = npt.NDArray[np.float64]
Out = Optional[Union[npt.NDArray[Any], Sequence[npt.NDArray[Any]]]]

# The parameters of each export: a slice of whole numbers (s), doubles (f) or bytes (u), a whole number (i), yes or no (b).
EXPORTS = {
    "snf3x3": "sssss",
    "smith3x3": "ssss",
    "hermite3x3": "ss",
    "order_forms": "sss",
    "same_grid": "sss",
    "worst_pair": "is",
    "reciprocal_rotations": "sbss",
    "reciprocal_group": "sbss",
    "reciprocal_point_group": "sbbss",
    "transform_rotations": "ssss",
    "ir_grid_map": "sssss",
    "class_weights": "sssissss",
    "all_grid_addresses": "ss",
    "grid_index_from_address": "sss",
    "rotate_grid_index": "issss",
    "bz_grid_addresses": "sssfissss",
    "bz_grid_sizes": "sssfis",
    "bz_grid_fill": "sssfisssss",
    "mark_candidates": "sssssis",
    "rotate_bz_grid_index": "issssssis",
    "rotate_bz_grid_indices": "sssssssiss",
    "neighboring_grid_points": "ssssssis",
    "convert_bz_grid": "ssssssss",
    "ir_triplets_at_q": "issbbsss",
    "bz_triplets_at_q": "issssssfissfs",
    "class_sheet": "sss",
    "list": "uus",
}
_DTYPES: dict[str, Any] = {"s": np.dtype(np.int64), "f": np.dtype(np.float64), "u": np.dtype(np.uint8)}
_ARGUMENTS: dict[str, list[Any]] = {letter: [ctypes.c_void_p, ctypes.c_size_t] for letter in "sfu"}
_ARGUMENTS |= {"i": [ctypes.c_int64], "b": [ctypes.c_bool]}


class _Given(NamedTuple):
    """The shape of an input, where None is any number, and what it is."""

    shape: tuple[Optional[int], ...]
    what: str


_GIVEN = {
    "a": _Given((3, 3), "by rows"),
    "b": _Given((3, 3), "by rows"),
    "g": _Given((3, 3), "by rows"),
    "h": _Given((3, 3), "by rows"),
    "d": _Given((3,), "the diagonal that snf3x3 leaves"),
    "q": _Given((3, 3), "the q that snf3x3 leaves"),
    "ps": _Given((3,), "the shift, in halves of a step"),
    "lattice": _Given((3, 3), "the reciprocal basis vectors in columns, np.linalg.inv(cell) where the rows of cell are a1, a2, a3"),
    "rotations": _Given((None, 3, 3), "a list of matrices, as spglib gives it"),
    "rotation": _Given((3, 3), "a matrix of the transformed list"),
    "address": _Given((3,), "an address"),
    "addresses": _Given((None, 3), "an address for each image"),
    "map": _Given((None,), "the map of an image table"),
    "grg": _Given((None,), "the point of each image"),
    "record": _Given((7,), "the record of an image table"),
    "sizes": _Given((3,), "what bz_grid_sizes tells"),
    "lowest": _Given((6,), "the inner products 11, 12, 13, 22, 23, 33"),
    "highest": _Given((6,), "the inner products 11, 12, 13, 22, 23, 33"),
    "indices": _Given((None,), "image indices"),
    "points": _Given((None,), "image indices"),
    "offsets": _Given((None, 3), "differences of addresses"),
    "class_map": _Given((None,), "a class number for each point"),
    "triplets": _Given((None, 3), "three image indices for each class"),
    "job": _Given((None,), "the bytes of a job file"),
}


def _load() -> dict[str, Any]:
    path = pathlib.Path(__file__).with_name("libzone.so")
    if not path.exists():
        raise ImportError("mossquilt: the library is not built; run python/build in the repository")
    library = ctypes.CDLL(str(path))
    functions: dict[str, Any] = {}
    for name, letters in EXPORTS.items():
        try:
            functions[name] = library[f"zone_{name}"]
        except AttributeError:
            raise ImportError(f"mossquilt: the library has no zone_{name}; run python/build anew") from None
        functions[name].restype = ctypes.c_int64
        functions[name].argtypes = [kind for letter in letters for kind in _ARGUMENTS[letter]]
    return functions


_FUNCTIONS = _load()


def _shown(shape: Sequence[Optional[int]]) -> str:
    return "(" + ", ".join("n" if side is None else str(side) for side in shape) + ("," if len(shape) == 1 else "") + ")"


def _array(name: str, letter: str, value: Any) -> npt.NDArray[Any]:
    """An input as the library takes it: the array itself, or a copy where its layout or kind of number is another."""
    shape, what = _GIVEN[name]
    dtype = _DTYPES[letter]
    try:
        array = np.asarray(value)
    except ValueError:
        raise ValueError(f"{name} is ragged; give an array of the shape {_shown(shape)}: {what}") from None
    if array.size == 0 and shape[0] is None and not isinstance(value, np.ndarray):
        array = np.zeros([side or 0 for side in shape], dtype)  # [] says neither its shape nor its numbers
    if len(array.shape) != len(shape) or any(side not in (None, n) for side, n in zip(shape, array.shape)):
        flat = array.size and array.size % 3 == 0 and array.ndim == 1 and len(shape) > 1
        way = f"; {name}.reshape{tuple(side or -1 for side in shape)} if it is by rows" if flat else ""
        raise ValueError(f"{name} has the shape {array.shape}, and must have {_shown(shape)}: {what}{way}")
    if array.dtype.kind not in ("iuf" if letter == "f" else "iu") or not np.can_cast(array.dtype, dtype):
        if letter == "f":
            way = f"give real numbers: {name}.astype(np.float64)"
        elif array.dtype.kind == "f":
            way = f"give whole numbers: np.rint({name}).astype(np.{dtype}), if they are whole but for rounding"
        else:
            way = f"give whole numbers: {name}.astype(np.{dtype}), if they fit"
        raise TypeError(f"{name} has the dtype {array.dtype}; {way}")
    return np.require(array, dtype, ["C", "A"])


def _number(name: str, value: Any) -> int:
    try:
        number = operator.index(value)
    except TypeError:
        raise TypeError(f"{name} is {value!r}, a {type(value).__name__}; give a whole number") from None
    if not -(2**63) <= number < 2**63:
        raise ValueError(f"{name} is {number}, which leaves 64 bits; give a number within -2**63 to 2**63 - 1")
    return number


def _answer(name: str, value: Any) -> bool:
    if not isinstance(value, (bool, np.bool_)):
        raise TypeError(f"{name} is {value!r}; give True or False")
    return bool(value)


def _lent(name: str, dtype: Any, shape: tuple[int, ...], array: Any) -> npt.NDArray[Any]:
    """An output that the caller lends."""
    if not isinstance(array, np.ndarray):
        raise TypeError(f"out: {name} is a {type(array).__name__}; give an array np.empty({shape}, np.{dtype}), or no out")
    way = f"give np.empty({shape}, np.{dtype}), or no out"
    if array.dtype != dtype:
        raise TypeError(f"out: {name} has the dtype {array.dtype}, and must have {dtype}; {way}")
    if array.shape != shape:
        raise ValueError(f"out: {name} has the shape {array.shape}, and must have {shape}; {way}")
    if not (array.flags.c_contiguous and array.flags.aligned):
        raise ValueError(f"out: the places of {name} are not one after the other in memory; {way}")
    if not array.flags.writeable:
        raise ValueError(f"out: {name} is read-only; {way}")
    return array


class Call:
    """One call of an export: its inputs, tested, in the order of the header."""

    def __init__(self, export: str, **given: Any) -> None:
        self.export = export
        self.given: dict[str, Any] = {}
        for (name, value), letter in zip(given.items(), EXPORTS[export]):
            if letter in "sfu":
                self.given[name] = _array(name, letter, value)
            else:
                self.given[name] = _number(name, value) if letter == "i" else _answer(name, value)

    def outputs(self, out: Out, shapes: dict[str, tuple[int, ...]]) -> list[npt.NDArray[Any]]:
        """The outputs, made or lent."""
        letters = EXPORTS[self.export][len(self.given) :]
        dtypes = [_DTYPES[letter] for letter in letters[: len(shapes)]]
        if out is None:
            return [np.empty(shape, dtype) for shape, dtype in zip(shapes.values(), dtypes)]
        if not isinstance(out, (np.ndarray, list, tuple)):
            raise TypeError(f"out is a {type(out).__name__}; give an array for each output: {', '.join(shapes)}")
        lent = [out] if isinstance(out, np.ndarray) else list(out)
        if len(lent) != len(shapes):
            raise ValueError(f"out has {len(lent)} arrays, and must have {len(shapes)}: {', '.join(shapes)}")
        made = [_lent(name, dtype, shape, array) for (name, shape), dtype, array in zip(shapes.items(), dtypes, lent)]
        before = [(name, value) for name, value in self.given.items() if isinstance(value, np.ndarray)]
        for name, array in zip(shapes, made):
            for other, place in before:
                if np.may_share_memory(array, place):
                    raise ValueError(f"out: {name} overlaps {other}; give it memory of its own, as {name}.copy()")
            before.append((name, array))
        return made

    def run(self, told: int, out: Out = None, /, **shapes: tuple[int, ...]) -> tuple[list[npt.NDArray[Any]], list[int]]:
        """The outputs, of the shapes that are named in the order of the header, and what is told."""
        made = self.outputs(out, shapes)
        counts = np.empty(told, np.int64)
        arguments: list[Any] = []
        for value in [*self.given.values(), *made, *([counts] if told else [])]:
            if isinstance(value, np.ndarray):
                arguments += [value.ctypes.data, value.size]
            else:
                arguments.append(value)
        answer = _FUNCTIONS[self.export](*arguments)
        if answer:
            refusal = Refusal(answer)
            name = "list_job" if self.export == "list" else self.export
            raise Refused(name, refusal, found(name, refusal, self.given))
        return made, [int(count) for count in counts]
