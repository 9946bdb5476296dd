//! Document 01 in plain Rust, and what the tests share.

pub mod brute;
pub mod engine;
pub mod make;
pub mod random;
pub mod trailer;

#[cfg(test)]
mod edit_tests;
#[cfg(test)]
mod engine_tests;
#[cfg(test)]
mod formats_tests;
#[cfg(test)]
mod header_tests;
