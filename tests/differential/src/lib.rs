//! The library, held against an independent reading of the paper.

pub mod compare;
