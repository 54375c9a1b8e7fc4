//! What the cache knows as `crate::sync`: here the standard library's own.

pub use std::sync::{atomic, Arc};
