//! What the benchmarks and the soak share: the library's calls, the same calls in plain Rust, and things made at random.

pub mod arrangement;
pub mod calls;
pub mod heap;
pub mod lists;
pub mod plain;
pub mod random;
pub mod states;
