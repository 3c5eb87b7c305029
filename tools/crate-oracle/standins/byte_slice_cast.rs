//! Stands in for the crate `byte-slice-cast`: the bytes of a slice of numbers, as they lie in memory.
//! codec.rs uses it where it writes and reads such slices in one go.

pub trait ToMutByteSlice: Copy {}

macro_rules! plain { ($($t:ty)*) => { $(impl ToMutByteSlice for $t {})* } }
plain!(u8 u16 u32 u64 u128 i8 i16 i32 i64 i128 f32 f64);

pub trait AsByteSlice<T> {
	fn as_byte_slice(&self) -> &[u8];
}

pub trait AsMutByteSlice<T> {
	fn as_mut_byte_slice(&mut self) -> &mut [u8];
}

impl<T: ToMutByteSlice> AsByteSlice<T> for [T] {
	fn as_byte_slice(&self) -> &[u8] {
		// SAFETY: the types above have no padding, and any byte may be looked at.
		unsafe { core::slice::from_raw_parts(self.as_ptr().cast(), size_of_val(self)) }
	}
}

impl<T: ToMutByteSlice> AsMutByteSlice<T> for [T] {
	fn as_mut_byte_slice(&mut self) -> &mut [u8] {
		// SAFETY: the types above have no padding, and any bytes make a value of them.
		unsafe { core::slice::from_raw_parts_mut(self.as_mut_ptr().cast(), size_of_val(self)) }
	}
}
