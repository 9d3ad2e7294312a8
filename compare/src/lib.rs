//! The proved calls against the independent second program: one input, both
//! answers, both buffers (the scope paper, section What the promises settle). And
//! the proved programs against the second ones: `line`, one traffic, all replies;
//! `replay`, one script of device calls, their answers and the state after them.

#![deny(warnings)]

pub mod alike;
pub mod program;
pub mod proved;
pub mod seed;
pub mod timing;
