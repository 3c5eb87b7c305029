//! Stands in for the crate `arrayvec`: the five functions of `ArrayVec` that compact.rs calls.
//! `Encode::encode` doesn't pass through it and `using_encoded` does; the oracle compares the two.
use core::ops::{Deref, DerefMut};

pub struct ArrayVec<T, const N: usize> {
	items: [T; N],
	len: usize,
}

impl<T: Copy + Default, const N: usize> ArrayVec<T, N> {
	pub fn new() -> Self {
		ArrayVec { items: [T::default(); N], len: 0 }
	}
	pub fn len(&self) -> usize {
		self.len
	}
	pub fn capacity(&self) -> usize {
		N
	}
	pub fn push(&mut self, item: T) {
		self.items[self.len] = item;
		self.len += 1;
	}
	/// # Safety
	/// None is needed here: every item is initialised. The real one asks for it.
	pub unsafe fn set_len(&mut self, len: usize) {
		self.len = len
	}
}

impl<T, const N: usize> Deref for ArrayVec<T, N> {
	type Target = [T];
	fn deref(&self) -> &[T] {
		&self.items[..self.len]
	}
}

impl<T, const N: usize> DerefMut for ArrayVec<T, N> {
	fn deref_mut(&mut self) -> &mut [T] {
		&mut self.items[..self.len]
	}
}
