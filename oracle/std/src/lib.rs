//! The real std under a name that a no_std crate can depend on: Debian's thiserror writes paths that begin with `std`.
pub use ::std::*;
