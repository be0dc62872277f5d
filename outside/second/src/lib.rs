//! The second program: document 01's machine and bench written again in plain Rust,
//! from documents 01 and 004 alone, to compare the product with.
//! Clear before fast: every act is judged on a decoded copy of the store.

pub mod bench;
pub mod cases;
pub mod compare;
pub mod damage;
pub mod dice;
pub mod layout;
pub mod malformed;
pub mod model;
pub mod pairs;
pub mod rules;
pub mod scripts;
pub mod steer;
pub mod stores;
pub mod wellformed;
