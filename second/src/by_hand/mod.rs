//! Calls as one writes them by hand for a small device: no heap, lent buffers,
//! places counted in the lent bytes, the check one bit at a time. They answer as
//! the second program does and are the measure that the proved code's speed is
//! held against. The device works on its stores with them for the same reason.

pub mod message;
pub mod object;
pub mod packet;
pub mod table;
