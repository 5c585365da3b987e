//! An independent implementation, written from the rules of the layout alone.

pub mod apply;
pub mod block;
pub mod crc;
pub mod discovery;
pub mod format;
pub mod heads;
pub mod layout;
pub mod mend;
pub mod receive;
pub mod record;
pub mod refusal;
pub mod room;
pub mod settled;
pub mod stream;
pub mod sweep;
pub mod update;

mod calls;
pub use calls::Model;
