//! What the comparison (main.rs) and the benchmark (../bench) have in common: the original, compiled from its own files, and
//! inputs for it and for the library.
pub mod answers;
pub mod class;
pub mod finder;
pub mod generate;
pub mod generate_class;
pub mod module;
pub mod original;
pub mod random;
pub mod readers;
pub mod records;
pub mod report;
pub mod second;
pub mod systems;
