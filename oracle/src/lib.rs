//! The oracle: turso_core 0.8.3's page cache, unchanged, behind the replay
//! records of document 01.
//!
//! `storage::page_cache` is the Rust file as published. `sync`, `assert` and the
//! rest of `storage` stand in for the parts of turso_core that it uses.
//! `driver` turns a record into a call and the outcome into an answer. `compare`
//! holds another program's output to it. Nothing here works out what the cache
//! would do, but for the walks by ascending key in `compare::walk`.

pub mod answer;
pub mod assert;
pub mod call;
pub mod compare;
pub mod driver;
pub mod generate;
pub mod read_ahead;
pub mod record;
pub mod replay;
pub mod rng;
pub mod storage;
pub mod sync;

// The cache names this macro at the crate's root.
pub(crate) use assert::turso_assert;

/// In turso_core the error is a wider one that a `CacheError` turns into. The
/// cache returns nothing else through it.
pub type Result<T> = std::result::Result<T, storage::page_cache::CacheError>;
