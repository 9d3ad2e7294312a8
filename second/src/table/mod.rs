//! Tables: records, the blocks in which they come, the stores in which they are
//! kept, a load from its opening to its close, and the versions.
//!
//! The scope paper, section Commands. Nothing here knows of packets or commands:
//! a table command is its layout around these.

pub mod block;
pub mod load;
pub mod record;
pub mod store;
pub mod version;

/// The network that names all the others and has no record of its own.
pub const ALL: u8 = 0;
