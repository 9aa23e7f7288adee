"""mossquilt: the zone folding of a diffuse-scattering camera, as proved software, on numpy arrays.

`fold` runs the whole chain. Every call of include/zone.h is a function here, with its name without zone_ (zone_list is
`list_job`); the header says what each means. Integers are int64 and reals float64, matrices are by rows. Any input of whole
numbers is taken that fits (int32 and lists too); floats for whole numbers are not. Outputs are made with the right lengths, or
lent as `out`, an array for each output: these must have the very dtype, shape and layout, and overlap nothing else.

Wrong types are a TypeError, wrong shapes and overlaps a ValueError. What the library refuses is `Refused`, a ValueError with the
number and its meaning; lent outputs then hold -1.
"""
from .folding import Fold, fold
from .forms import Smith, Snf, WorstPair, hermite3x3, order_forms, same_grid, smith3x3, snf3x3, worst_pair
from .grids import (
    ClassMap,
    Folded,
    Weights,
    all_grid_addresses,
    class_weights,
    grid_index_from_address,
    ir_grid_map,
    rotate_grid_index,
)
from .images import (
    Rotated,
    RotatedMany,
    Sizes,
    Table,
    bz_grid_addresses,
    bz_grid_fill,
    bz_grid_sizes,
    convert_bz_grid,
    mark_candidates,
    neighboring_grid_points,
    rotate_bz_grid_index,
    rotate_bz_grid_indices,
)
from .jobs import list_job
from .refusals import Refusal, Refused
from .rotations import reciprocal_group, reciprocal_point_group, reciprocal_rotations, transform_rotations
from .triplets import TripletClasses, Triplets, bz_triplets_at_q, class_sheet, ir_triplets_at_q

__all__ = [
    "Fold",
    "fold",
    "Smith",
    "Snf",
    "WorstPair",
    "hermite3x3",
    "order_forms",
    "same_grid",
    "smith3x3",
    "snf3x3",
    "worst_pair",
    "ClassMap",
    "Folded",
    "Weights",
    "all_grid_addresses",
    "class_weights",
    "grid_index_from_address",
    "ir_grid_map",
    "rotate_grid_index",
    "Rotated",
    "RotatedMany",
    "Sizes",
    "Table",
    "bz_grid_addresses",
    "bz_grid_fill",
    "bz_grid_sizes",
    "convert_bz_grid",
    "mark_candidates",
    "neighboring_grid_points",
    "rotate_bz_grid_index",
    "rotate_bz_grid_indices",
    "list_job",
    "Refusal",
    "Refused",
    "reciprocal_group",
    "reciprocal_point_group",
    "reciprocal_rotations",
    "transform_rotations",
    "TripletClasses",
    "Triplets",
    "bz_triplets_at_q",
    "class_sheet",
    "ir_triplets_at_q",
]
