//! The crate around the genuine build. `build` copies the genuine files in beside these; every module marked "ours" stands for one that the genuine
//! files lean on and that is not needed whole.
#![allow(warnings)]

pub mod catalog; // ours
pub mod compile; // mod.rs and encode.rs are ours; ast, program and codegen/* are genuine
pub mod diag; // ours
pub mod hash; // genuine
pub mod numeric; // mod.rs is ours; post_op is genuine
pub mod ops; // made by derive.py: operators in order of first mention in `expr`
pub mod version; // ours

pub use compile::{Lowered, lower};
