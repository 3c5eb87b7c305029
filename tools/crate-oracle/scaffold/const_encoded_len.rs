// Scaffolding, not the crate's text: lib.rs names this trait. The oracle doesn't use it.

/// Named by lib.rs.
pub trait ConstEncodedLen: crate::MaxEncodedLen {}
