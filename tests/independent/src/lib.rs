//! The rules of document 01 and those of document 02 that are built, written independently of the library, and C functions over
//! them.

pub mod cache;
pub mod certificate;
pub mod exports;
pub mod publish;
pub mod rules;
