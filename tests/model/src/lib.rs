//! An independent implementation of the requirements and the source, in plain
//! Rust. The product is compared with it. See README.md.

pub mod agreement;
pub mod gen;
pub mod layout;
pub mod limits;
pub mod listings;
pub mod model;
pub mod naive;
pub mod script;
pub mod written;
