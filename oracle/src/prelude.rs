//! Stands in for webpkit's `crate::prelude`, which re-exports items of `alloc`.
#![allow(unused_imports)]
pub use std::vec;
pub use std::vec::Vec;
