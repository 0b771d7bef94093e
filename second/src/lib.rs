//! An ordinary program for the same frames, safe Rust with no dependencies and nothing shared with the proved code: what the proved code is
//! compared with, in its results and in its speed.
#![forbid(unsafe_code)]

pub mod aes;
pub mod book;
pub mod ccm;
pub mod fragment;
pub mod frame;
pub mod sample;
pub mod table;
pub mod window;
