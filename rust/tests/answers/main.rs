//! The crate as a service uses it: the original's calls first, then what is added.

#![forbid(unsafe_code)]

mod by_hand;
mod frames;
mod inputs;
mod real;
mod sections;
mod words;
