//! The proved code measured against plain Rust that does the same work.

pub mod logs;
pub mod plain;
pub mod questions;
pub mod shapes;
