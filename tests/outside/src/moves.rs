//! The calls that write a record with another head, by what they are asked for.

use crate::interface::{Device, Interface, LengthAnswer};

#[derive(Clone, Copy, Debug, PartialEq, Eq)]
pub enum Move {
    Up,
    Back,
    /// Sets the low water mark.
    Mark(u32),
}

impl Move {
    pub fn call(&self) -> &'static str {
        match self {
            Move::Up => "head_up",
            Move::Back => "head_back",
            Move::Mark(_) => "head_mark",
        }
    }

    pub fn ask(&self, api: &dyn Interface, device: Device, record: &[u8], changed: &mut [u8]) -> LengthAnswer {
        match *self {
            Move::Up => api.head_up(device, record, changed),
            Move::Back => api.head_back(device, record, changed),
            Move::Mark(low_water) => api.head_mark(device, record, low_water, changed),
        }
    }
}
