//! Stand-in for the original's module `logging`, which is not among the given files: the macros do nothing.
//! The module is ours, so it is also where the functions that the crate keeps to itself are reached; no given file is touched.

macro_rules! trace {
    ($($arg:tt)*) => {};
}

macro_rules! debug {
    ($($arg:tt)*) => {};
}

use crate::disk::LogicalBlockSize;
use crate::header::{self, Header, HeaderError};
use std::io::{Read, Seek};

impl Header {
    /// `header::read_backup_header`
    pub fn oracle_read_backup<D: Read + Seek>(file: &mut D, b: LogicalBlockSize) -> Result<Header, HeaderError> {
        header::read_backup_header(file, b)
    }

    /// `header::find_backup_lba`
    pub fn oracle_find_backup<D: Read + Seek>(file: &mut D, b: LogicalBlockSize) -> Result<u64, HeaderError> {
        header::find_backup_lba(file, b)
    }

    /// `header::partentry_checksum`
    pub fn oracle_array_sum<D: Read + Seek>(file: &mut D, h: &Header, b: LogicalBlockSize) -> Result<u32, HeaderError> {
        header::partentry_checksum(file, h, b)
    }
}
