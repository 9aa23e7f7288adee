//! The limits of document 01. A limit on entries is one on their size, and every
//! limit is itself allowed.

/// Entries of the matrix A.
pub const MATRIX_ENTRY: i64 = 1_000_000;
/// The limit of the worst pair; the least is 1.
pub const WORST_LIMIT: i64 = 1_000_000;
/// Entries of Q.
pub const Q_ENTRY: i64 = 1_000;
/// Entries of the rotations that `transform_rotations` takes.
pub const TRANSFORMED_ENTRY: i64 = 100;
/// Entries of the rotations that every other call takes.
pub const ROTATION_ENTRY: i64 = 100_000;
/// Inner products of a cell that is known within ranges.
pub const INNER_PRODUCT: i64 = 1_000_000;
/// Rotations in a list.
pub const ROTATIONS: usize = 192;
/// Rotations that the reciprocal calls answer.
pub const RECIPROCAL_ROTATIONS: usize = 48;
/// Each diagonal number; the least is 1.
pub const DIAGONAL: i64 = 256;
/// The product of the three diagonal numbers.
pub const POINTS: i64 = 65_536;
/// Entries of the lattice, which are finite.
pub const LATTICE_ENTRY: f64 = 1_000_000.0;
/// Numbers of a neighbour's offset.
pub const OFFSET: i64 = 1_000;

/// Numbers of an address that is read from a table.
pub const ADDRESS: i64 = 10_000_000_000_000;
/// Values that are read from an image map; the least is 0.
pub const MAP_VALUE: i64 = 1 << 40;
/// The search range of the images on each axis.
pub use phonors::watched::SEARCH;

/// Bytes of a job file; its header alone has the least number.
pub const JOB_BYTES: usize = 8_192;
pub const JOB_HEADER_BYTES: usize = 32;
/// Points and images that a job may have.
pub const JOB_POINTS: usize = 256;
pub const JOB_IMAGES: usize = 1_024;
