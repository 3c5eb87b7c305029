// Scaffolding, not the crate's text: a marker without methods. It has no part in any byte.
use crate::Encode;

/// Marker: encodes like `T`.
pub trait EncodeLike<T: Encode = Self>: Sized + Encode {}

/// Named by lib.rs. The oracle doesn't use it.
pub struct Ref<'a, T>(pub &'a T);
