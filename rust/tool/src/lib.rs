//! What the command `ch11` does: lists recordings of any size, checks them and shows their messages. Every answer is that of the verified
//! library, through the crate `ch11`; here is only what brings it the bytes, and puts its answers in words.

#![forbid(unsafe_code)]

pub mod ahead;
pub mod arguments;
pub mod check;
pub mod dump;
pub mod failure;
mod fill;
pub mod list;
pub mod messages;
pub mod progress;
pub mod reading;
pub mod run;
pub mod source;
pub mod times;
pub mod windows;
pub mod words;
