//! The calls of the library twice over: `plain` is an independent version in ordinary Rust, written to docs/SCOPE.md, and `proved` is
//! the library itself, linked as an archive.

pub mod cases;
pub mod chance;
pub mod pictures;
pub mod plain;
pub mod proved;
pub mod stream;
