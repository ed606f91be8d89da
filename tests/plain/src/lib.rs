//! A second implementation of every call but the version, in plain Rust and whole numbers.
//!
//! Nothing here is proved. It is written from documents 01 and 02 alone, to be compared with the
//! proved library on many inputs and to be timed beside it. [`door`] has the calls, in the shape of the
//! C functions of `include/imbrolt.h`: slices and numbers in, 0 or a refusal's number out.

#![no_std]
#![forbid(unsafe_code)]

pub mod door;
mod energy;
mod intake;
mod lift;
mod line;
mod rating;
pub mod refusal;
pub mod register;
mod rooms;
pub mod tables;
