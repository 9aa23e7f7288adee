"""The refusals of the library, and what to do about each."""
from __future__ import annotations

import enum


class Refusal(enum.IntEnum):
    """The number of a refusal, as include/zone.h has it.

    >>> Refusal(6).name
    'SYMMETRY_BROKEN'
    """

    SINGULAR = 1
    NOT_CONVERGED = 2
    OUTSIDE_LIMITS = 3
    OVERFLOW = 4
    SINGULAR_Q = 5
    SYMMETRY_BROKEN = 6
    TOO_MANY_ROTATIONS = 7
    TOO_MANY_FOR_INVERSION = 8
    BAD_GRID_TYPE = 9
    NOT_UNIMODULAR_Q = 10
    SINGULAR_RECIPROCAL_LATTICE = 11
    SEARCH_FAILED = 12
    WRONG_LENGTH = 13
    OUTSIDE_TABLE = 14
    BAD_HEADER = 15
    OTHER_SIZES = 16
    OTHER_GRID = 17
    NOT_GROUP = 18
    COULD_NOT_STAND = 19
    INVERTED_RANGE = 20

    @property
    def meaning(self) -> str:
        """What is wrong."""
        return _WORDS[self][0]

    @property
    def advice(self) -> str:
        """What to do about it."""
        return _WORDS[self][1]


# What is wrong, and what to do.
_WORDS = {
    Refusal.SINGULAR: ("the determinant of the matrix is 0", "give three rows that are not in one plane"),
    Refusal.NOT_CONVERGED: ("100 rounds end without a diagonal", "this is never given, as is proved: the library is damaged"),
    Refusal.OUTSIDE_LIMITS: ("a number is outside its limits", "include/zone.h has them under LIMITS"),
    Refusal.OVERFLOW: ("a number on the way leaves 64 bits", "take smaller rows that span the same translations"),
    Refusal.SINGULAR_Q: ("the determinant of q is 0", "give the q that snf3x3 left with d"),
    Refusal.SYMMETRY_BROKEN: (
        "a rotation does not keep the grid",
        "take a grid with the symmetry of the crystal, as one with equal numbers along equivalent axes, and give the reciprocal "
        "list, in the basis of the grid; jobs/from-cell names the nearest such grid",
    ),
    Refusal.TOO_MANY_ROTATIONS: ("over 48 rotations are distinct", "give the rotations of a point group, each once"),
    Refusal.TOO_MANY_FOR_INVERSION: (
        "over 24 rotations are distinct, the inversion is not among them, and time reversal would join their negatives",
        "give the rotations of a point group, or time_reversal=False",
    ),
    Refusal.BAD_GRID_TYPE: ("the type is neither 1 (sparse) nor 2 (dense)", "give bz_grid_type 1 or 2"),
    Refusal.NOT_UNIMODULAR_Q: ("the determinant of q is neither 1 nor -1", "give the q that snf3x3 left with d"),
    Refusal.SINGULAR_RECIPROCAL_LATTICE: (
        "the determinant of the lattice is 0",
        "give three reciprocal basis vectors, in columns, that are not in one plane",
    ),
    Refusal.SEARCH_FAILED: (
        "the search for the images of a point goes over 16 cells along a basis vector, or finds none",
        "the basis is skewed or very unequal: reduce it (spglib.niggli_reduce), and say the rotations and the grid in that basis",
    ),
    Refusal.WRONG_LENGTH: (
        "a slice has another length than it must, or an output is too short",
        "a job file has room for 256 points and 1,024 images; larger grids go through fold, or call by call",
    ),
    Refusal.OUTSIDE_TABLE: (
        "an index, or a number read from the table, is outside of the table",
        "ask for images of this table, 0 to len(table.grg) - 1, and give the table as it was made",
    ),
    Refusal.BAD_HEADER: ("the header of the job file is wrong", "jobs/make writes job files from a readable text"),
    Refusal.OTHER_SIZES: (
        "the sizes are not those of the table",
        "give what bz_grid_sizes tells for the same d, q, ps, lattice and type",
    ),
    Refusal.OTHER_GRID: (
        "the table was made for another diagonal, shift or type",
        "give the d, ps and type that the table was made with: its record is d0 d1 d2 ps0 ps1 ps2 type",
    ),
    Refusal.NOT_GROUP: (
        "the rotations are no group",
        "give the rotations of the crystal's point group in direct space, each once: np.unique(rotations, axis=0); a crystal "
        "without symmetry has the identity alone",
    ),
    Refusal.COULD_NOT_STAND: ("no images make this table", "give a table as bz_grid_addresses left it, and its own record"),
    Refusal.INVERTED_RANGE: ("the lowest of an inner product is above its highest", "give lowest <= highest, place by place"),
}


class Refused(ValueError):
    """A call that the library refused: `call` is its name, `refusal` its number and meaning, `found` what was seen in the input.

    >>> from mossquilt import snf3x3
    >>> try:
    ...     snf3x3([[1, 0, 0], [0, 1, 0], [0, 0, 0]])
    ... except Refused as refused:
    ...     print(refused.refusal.value, refused)
    1 snf3x3 is refused (1, SINGULAR): the determinant of the matrix is 0; give three rows that are not in one plane
    """

    def __init__(self, call: str, refusal: Refusal, found: str = "") -> None:
        super().__init__(call, refusal, found)
        self.call = call
        self.refusal = refusal
        self.found = found

    def __str__(self) -> str:
        number = f"{self.call} is refused ({self.refusal.value}, {self.refusal.name}): {self.refusal.meaning}"
        return "; ".join(part for part in (number, self.found, self.refusal.advice) if part)
