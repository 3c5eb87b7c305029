// Scaffolding, not the crate's text: an empty token that decoders hand back. It has no part in any byte.

/// Says that decoding into a place has finished.
pub struct DecodeFinished(core::marker::PhantomData<*const ()>);

impl DecodeFinished {
	/// # Safety
	/// Only once the place has been initialised.
	pub unsafe fn assert_decoding_finished() -> DecodeFinished {
		DecodeFinished(core::marker::PhantomData)
	}
}
