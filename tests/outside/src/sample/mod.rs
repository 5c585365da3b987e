//! Random inputs: devices, times, records and copies, valid and damaged.

pub mod blocks;
pub mod clashes;
pub mod copies;
pub mod heads;
pub mod numbers;
pub mod pieces;
pub mod records;
pub mod zeros;
