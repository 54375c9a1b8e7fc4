//! Writes traces: records for the replay program.
//!
//! Both generators run the Rust as they go, so that they know what is held and
//! can stay in document 01's domain. Neither ever writes a record that gets the
//! mark `other record`: 01 answers it by changing the pool, the Rust isn't
//! asked, and no answer after it could be compared.

pub mod exhaustive;
pub mod pages;
pub mod random;
pub mod theme;
