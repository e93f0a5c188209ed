//! Hewnspandrel held against the crate matrixmultiply 0.3.11 (the oracle) and against documents 01 and 02 written out once
//! more.

#[cfg(not(all(target_arch = "x86_64", target_os = "linux")))]
compile_error!("the target of this build is not x86-64 Linux, the only one that the proved library is for");

#[cfg(any(target_feature = "avx", target_feature = "fma"))]
compile_error!("the target's features let the oracle choose a vector kernel, whose bits differ: build for plain x86-64");

pub mod check;
pub mod kind;
pub mod made;
pub mod model;
pub mod panel;
pub mod pieces;
pub mod plain;
pub mod random;
pub mod statement;
