//! A second, slow and plain implementation of the park. It serves only to
//! check the first one, and was written from the rules alone.
#![forbid(unsafe_code)]

pub mod channel;
pub mod coins;
pub mod compare;
pub mod generate;
pub mod park;
pub mod script;
pub mod words;
