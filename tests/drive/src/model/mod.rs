//! The independent implementation of tests/outside: blocks, discovery, updates, heads and mending, from the rules of the layout.

#[path = "../../../outside/src/model/block.rs"]
pub mod block;
#[path = "../../../outside/src/model/crc.rs"]
pub mod crc;
#[path = "../../../outside/src/model/discovery.rs"]
pub mod discovery;
#[path = "../../../outside/src/model/format.rs"]
pub mod format;
#[path = "../../../outside/src/model/heads.rs"]
pub mod heads;
#[path = "../../../outside/src/model/layout.rs"]
pub mod layout;
#[path = "../../../outside/src/model/mend.rs"]
pub mod mend;
#[path = "../../../outside/src/model/record.rs"]
pub mod record;
#[path = "../../../outside/src/model/refusal.rs"]
pub mod refusal;
#[path = "../../../outside/src/model/room.rs"]
pub mod room;
#[path = "../../../outside/src/model/update.rs"]
pub mod update;
