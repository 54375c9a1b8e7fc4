//! The oracle's own tests.

mod binary;
mod compare;
mod differences;
mod document;
mod files;
mod generators;
mod holders;
mod marks;
mod pool;
mod readings;
mod records;
mod sample;
mod source;
mod sweeps;
mod table;
mod walk;
