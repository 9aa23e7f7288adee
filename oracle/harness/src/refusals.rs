//! The numbers of the answers, from documents 01 and 02.

pub const ACCEPTED: i64 = 0;

pub const SINGULAR: i64 = 1;
pub const NOT_CONVERGED: i64 = 2;
pub const OUTSIDE_LIMITS: i64 = 3;
pub const OVERFLOW: i64 = 4;
pub const SINGULAR_Q: i64 = 5;
pub const SYMMETRY_BROKEN: i64 = 6;
pub const TOO_MANY_ROTATIONS: i64 = 7;
pub const TOO_MANY_FOR_INVERSION: i64 = 8;
pub const BAD_GRID_TYPE: i64 = 9;
pub const NOT_UNIMODULAR_Q: i64 = 10;
pub const SINGULAR_LATTICE: i64 = 11;
pub const SEARCH_RANGE: i64 = 12;
pub const WRONG_LENGTH: i64 = 13;
pub const BAD_INDEX: i64 = 14;
pub const WRONG_HEADER: i64 = 15;
pub const OTHER_SIZES: i64 = 16;
pub const OTHER_GRID: i64 = 17;
pub const NOT_GROUP: i64 = 18;
pub const COULD_NOT_STAND: i64 = 19;
pub const INVERTED_RANGE: i64 = 20;

/// What a refusal leaves in every place of every output.
pub const REFUSED_PLACE: i64 = -1;
