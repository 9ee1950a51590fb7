//! `typed-path-proved` by the name of `typed-path`: for `[patch.crates-io]`, which replaces a package by one of the
//! same name.
#![no_std]

pub use proved::*;
