//! Tests of the library from outside: the C interface, an independent implementation, and what the test programs share.

pub mod disk;
pub mod ffi;
pub mod guard;
#[cfg(test)]
mod header;
pub mod interface;
pub mod lent;
pub mod model;
pub mod moves;
pub mod rng;
pub mod sample;
#[cfg(feature = "self-test")]
pub mod stand_in;
mod structs;
#[cfg(feature = "self-test")]
pub mod wrong;
