//! Stands in for the crate `bitvec`: the names that bit_vec.rs uses, one byte of memory a bit, only u8
//! words, lowest bit first (`Lsb0`). Which bit of a word is which, `elts`, `truncate` and
//! `copy_from_bitslice` are this file's and say nothing about the real crate.
use core::marker::PhantomData;

pub mod order {
	/// Bit order.
	pub trait BitOrder: 'static {}
	/// Lowest bit first.
	pub struct Lsb0;
	impl BitOrder for Lsb0 {}
}

pub mod store {
	pub trait BitStore: Copy + 'static {
		const ZERO: Self;
		fn get(&self, i: usize) -> bool;
		fn set(&mut self, i: usize, v: bool);
	}
	impl BitStore for u8 {
		const ZERO: u8 = 0;
		fn get(&self, i: usize) -> bool {
			*self >> i & 1 == 1
		}
		fn set(&mut self, i: usize, v: bool) {
			*self = *self & !(1 << i) | (v as u8) << i
		}
	}
}

pub mod mem {
	/// Words needed for so many bits.
	pub const fn elts<T>(bits: usize) -> usize {
		let w = core::mem::size_of::<T>() * 8;
		bits / w + (bits % w != 0) as usize
	}
}

pub mod slice {
	use super::*;
	#[repr(transparent)]
	pub struct BitSlice<T, O> {
		_p: PhantomData<(T, O)>,
		pub(crate) bits: [bool],
	}
	impl<T, O> BitSlice<T, O> {
		pub(crate) fn new(b: &[bool]) -> &Self {
			// SAFETY: repr(transparent) over [bool].
			unsafe { &*(b as *const [bool] as *const Self) }
		}
		pub(crate) fn new_mut(b: &mut [bool]) -> &mut Self {
			// SAFETY: repr(transparent) over [bool].
			unsafe { &mut *(b as *mut [bool] as *mut Self) }
		}
		pub fn len(&self) -> usize {
			self.bits.len()
		}
		pub fn chunks(&self, n: usize) -> impl Iterator<Item = &Self> {
			self.bits.chunks(n).map(Self::new)
		}
		pub fn copy_from_bitslice(&mut self, o: &Self) {
			self.bits.copy_from_slice(&o.bits)
		}
		pub fn get(&self, i: usize) -> bool {
			self.bits[i]
		}
	}
}

pub mod view {
	use super::{slice::BitSlice, store::BitStore, *};
	use core::ops::{Index, IndexMut, RangeTo};
	/// A copy of a word's bits that is written back when it is dropped.
	pub struct View<'a, T: BitStore, O> {
		word: &'a mut T,
		bits: Vec<bool>,
		_p: PhantomData<O>,
	}
	pub trait BitView: BitStore {
		fn view_bits_mut<O>(&mut self) -> View<'_, Self, O> {
			let bits = (0..core::mem::size_of::<Self>() * 8).map(|i| self.get(i)).collect();
			View { word: self, bits, _p: PhantomData }
		}
	}
	impl<T: BitStore> BitView for T {}
	impl<T: BitStore, O> Index<RangeTo<usize>> for View<'_, T, O> {
		type Output = BitSlice<T, O>;
		fn index(&self, r: RangeTo<usize>) -> &Self::Output {
			BitSlice::new(&self.bits[r])
		}
	}
	impl<T: BitStore, O> IndexMut<RangeTo<usize>> for View<'_, T, O> {
		fn index_mut(&mut self, r: RangeTo<usize>) -> &mut Self::Output {
			BitSlice::new_mut(&mut self.bits[r])
		}
	}
	impl<T: BitStore, O> Drop for View<'_, T, O> {
		fn drop(&mut self) {
			for (i, b) in self.bits.iter().enumerate() {
				self.word.set(i, *b)
			}
		}
	}
}

pub mod vec {
	use super::{slice::BitSlice, store::BitStore, *};
	pub struct BitVec<T, O> {
		_p: PhantomData<(T, O)>,
		pub(crate) bits: Vec<bool>,
	}
	impl<T: BitStore, O> BitVec<T, O> {
		pub fn try_from_vec(v: Vec<T>) -> Result<Self, Vec<T>> {
			let w = core::mem::size_of::<T>() * 8;
			let bits = v.iter().flat_map(|e| (0..w).map(move |i| e.get(i))).collect();
			Ok(BitVec { _p: PhantomData, bits })
		}
		pub fn from_bools(bits: Vec<bool>) -> Self {
			BitVec { _p: PhantomData, bits }
		}
		pub fn len(&self) -> usize {
			self.bits.len()
		}
		pub fn truncate(&mut self, n: usize) {
			self.bits.truncate(n)
		}
		pub fn as_bitslice(&self) -> &BitSlice<T, O> {
			BitSlice::new(&self.bits)
		}
	}
}

pub mod boxed {
	use super::{slice::BitSlice, store::BitStore, vec::BitVec};
	pub struct BitBox<T, O>(BitVec<T, O>);
	impl<T: BitStore, O> BitBox<T, O> {
		pub fn as_bitslice(&self) -> &BitSlice<T, O> {
			self.0.as_bitslice()
		}
	}
	impl<T, O> From<BitVec<T, O>> for BitBox<T, O> {
		fn from(v: BitVec<T, O>) -> Self {
			BitBox(v)
		}
	}
}
