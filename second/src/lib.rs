//! The independent second program.
//!
//! The scope paper, section What the promises settle, wants the documents'
//! examples and the unmarked samples run against a program that shares nothing
//! with the proved one. This package is that program: it follows the paper
//! alone and goes other ways on purpose (heap, `Vec`, a table for the check), so
//! that one slip is unlikely to be made twice.
//!
//! `by_hand` is the exception: it works as the proved code has to, without heap
//! and one bit or byte at a time, and is there to measure speed against. So is
//! the device, which judges its lent stores in every call and works on them with
//! what is there; its tests hold it against a model that does not.

#![deny(warnings)]
#![forbid(unsafe_code)]

pub mod answer;
pub mod by_hand;
pub mod check;
pub mod device;
pub mod digits;
pub mod hex;
pub mod line;
pub mod material;
pub mod message;
pub mod object;
pub mod packet;
pub mod parameter;
pub mod pieces;
pub mod random;
pub mod replay;
pub mod script;
pub mod stored;
pub mod table;
pub mod tag;
pub mod vectors;
