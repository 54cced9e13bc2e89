//! The model: the rules of the scope document and of the change requests that
//! have landed, in plain Rust. It shares nothing with the library.

pub mod best;
pub mod carry;
pub mod field;
pub mod host;
pub mod judge;
pub mod list;
pub mod lister;
pub mod machine;
pub mod mark;
pub mod molfile;
pub mod plain_molfile;
pub mod record;
pub mod search;
pub mod sheet;
pub mod shortest;

pub use record::Record;

/// The highest number of atoms.
pub const MAX_ATOMS: u64 = 128;
/// The highest number of bonds.
pub const MAX_BONDS: u64 = 1024;
/// Bytes of one row.
pub const ROW: usize = 16;
/// Bytes of all rows.
pub const ROWS: usize = 2048;
/// Bytes of a record: atoms, bonds, rows.
pub const RECORD: usize = 4 + ROWS;
