//! An independent reading of the paper and generated inputs, to hold programs
//! and a library against.

pub mod hints;
pub mod inputs;
pub mod modules;
pub mod rows;
