//! Fixed Rust types: the crate's own decoders and encoders, instantiated as a user would. This file
//! adds the list of types, the table that names each, and how a value is laid out in cells.
use crate::{hex, join, list, msg, unhex};
use bitvec::{order::Lsb0, vec::BitVec};
use parity_scale_codec::{
	Compact, CountedInput, Decode, DecodeLimit, Encode, Error, Input, MaxEncodedLen, MemTrackingInput, OptionBool, Output,
};

pub type Nodes = Vec<[u16; 3]>;
pub struct Cells<'a>(pub &'a [u64]);
impl Cells<'_> {
	pub fn next(&mut self) -> Option<u64> {
		let (f, r) = self.0.split_first()?;
		self.0 = r;
		Some(*f)
	}
}

pub trait Ty: Sized + Decode + Encode {
	fn table(n: &mut Nodes) -> u16;
	fn put(&self, out: &mut Vec<u64>);
	fn get(c: &mut Cells) -> Option<Self>;
}
pub fn push(n: &mut Nodes, x: [u16; 3]) -> u16 {
	if let Some(i) = n.iter().position(|y| *y == x) {
		return i as u16;
	}
	n.push(x);
	n.len() as u16 - 1
}
pub fn table_hex(n: &Nodes) -> String {
	let mut b = vec![0x57, 0x54, 0x44, 1, 0, n.len() as u8];
	for [k, a, c] in n {
		b.extend([*k as u8, *a as u8, *c as u8, (*c >> 8) as u8]);
	}
	hex(&b)
}

impl Ty for () {
	fn table(n: &mut Nodes) -> u16 { push(n, [0, 0, 0]) }
	fn put(&self, out: &mut Vec<u64>) { out.push(0) }
	fn get(c: &mut Cells) -> Option<Self> { (c.next()? == 0).then_some(()) }
}
impl Ty for bool {
	fn table(n: &mut Nodes) -> u16 { push(n, [1, 0, 0]) }
	fn put(&self, out: &mut Vec<u64>) { out.push(*self as u64) }
	fn get(c: &mut Cells) -> Option<Self> {
		match c.next()? { 0 => Some(false), 1 => Some(true), _ => None }
	}
}
impl Ty for OptionBool {
	fn table(n: &mut Nodes) -> u16 { push(n, [2, 0, 0]) }
	fn put(&self, out: &mut Vec<u64>) {
		out.push(match self.0 { None => 0, Some(true) => 1, Some(false) => 2 })
	}
	fn get(c: &mut Cells) -> Option<Self> {
		match c.next()? {
			0 => Some(OptionBool(None)),
			1 => Some(OptionBool(Some(true))),
			2 => Some(OptionBool(Some(false))),
			_ => None,
		}
	}
}
macro_rules! ints { ($($t:ty)*) => { $(
	impl Ty for $t {
		fn table(n: &mut Nodes) -> u16 { push(n, [3, size_of::<$t>() as u16, 0]) }
		fn put(&self, out: &mut Vec<u64>) { out.push(*self as u64) }
		fn get(c: &mut Cells) -> Option<Self> { c.next()?.try_into().ok() }
	}
	impl Ty for Compact<$t> {
		fn table(n: &mut Nodes) -> u16 { push(n, [4, size_of::<$t>() as u16, 0]) }
		fn put(&self, out: &mut Vec<u64>) { out.push(self.0 as u64) }
		fn get(c: &mut Cells) -> Option<Self> { Some(Compact(c.next()?.try_into().ok()?)) }
	}
)* } }
ints!(u8 u16 u32 u64);
// signed integers travel as their bits
macro_rules! signed { ($($t:ty, $u:ty;)*) => { $(
	impl Ty for $t {
		fn table(n: &mut Nodes) -> u16 { push(n, [3, size_of::<$t>() as u16, 0]) }
		fn put(&self, out: &mut Vec<u64>) { out.push(*self as $u as u64) }
		fn get(c: &mut Cells) -> Option<Self> { Some(<$u>::try_from(c.next()?).ok()? as $t) }
	}
)* } }
signed!(i8, u8; i16, u16; i32, u32; i64, u64;);
fn put128(v: u128, out: &mut Vec<u64>) { out.extend([v as u64, (v >> 64) as u64]) }
fn get128(c: &mut Cells) -> Option<u128> {
	let lo = c.next()?;
	Some(lo as u128 | (c.next()? as u128) << 64)
}
impl Ty for u128 {
	fn table(n: &mut Nodes) -> u16 { push(n, [3, 16, 0]) }
	fn put(&self, out: &mut Vec<u64>) { put128(*self, out) }
	fn get(c: &mut Cells) -> Option<Self> { get128(c) }
}
impl Ty for i128 {
	fn table(n: &mut Nodes) -> u16 { push(n, [3, 16, 0]) }
	fn put(&self, out: &mut Vec<u64>) { put128(*self as u128, out) }
	fn get(c: &mut Cells) -> Option<Self> { Some(get128(c)? as i128) }
}
impl Ty for Compact<u128> {
	fn table(n: &mut Nodes) -> u16 { push(n, [4, 16, 0]) }
	fn put(&self, out: &mut Vec<u64>) { put128(self.0, out) }
	fn get(c: &mut Cells) -> Option<Self> { Some(Compact(get128(c)?)) }
}
impl Ty for f32 {
	fn table(n: &mut Nodes) -> u16 { push(n, [5, 4, 0]) }
	fn put(&self, out: &mut Vec<u64>) { out.push(self.to_bits() as u64) }
	fn get(c: &mut Cells) -> Option<Self> { Some(f32::from_bits(c.next()?.try_into().ok()?)) }
}
impl Ty for f64 {
	fn table(n: &mut Nodes) -> u16 { push(n, [5, 8, 0]) }
	fn put(&self, out: &mut Vec<u64>) { out.push(self.to_bits()) }
	fn get(c: &mut Cells) -> Option<Self> { Some(f64::from_bits(c.next()?)) }
}
impl<T: Ty> Ty for Option<T> {
	fn table(n: &mut Nodes) -> u16 { let a = T::table(n); push(n, [6, a, 0]) }
	fn put(&self, out: &mut Vec<u64>) {
		out.push(self.is_some() as u64);
		if let Some(x) = self { x.put(out) }
	}
	fn get(c: &mut Cells) -> Option<Self> {
		match c.next()? { 0 => Some(None), 1 => Some(Some(T::get(c)?)), _ => None }
	}
}
impl<T: Ty, E: Ty> Ty for Result<T, E> {
	fn table(n: &mut Nodes) -> u16 { let (a, b) = (T::table(n), E::table(n)); push(n, [7, a, b]) }
	fn put(&self, out: &mut Vec<u64>) {
		match self {
			Ok(x) => { out.push(0); x.put(out) },
			Err(x) => { out.push(1); x.put(out) },
		}
	}
	fn get(c: &mut Cells) -> Option<Self> {
		match c.next()? { 0 => Some(Ok(T::get(c)?)), 1 => Some(Err(E::get(c)?)), _ => None }
	}
}
impl<A: Ty, B: Ty> Ty for (A, B) {
	fn table(n: &mut Nodes) -> u16 { let (a, b) = (A::table(n), B::table(n)); push(n, [8, a, b]) }
	fn put(&self, out: &mut Vec<u64>) { self.0.put(out); self.1.put(out) }
	fn get(c: &mut Cells) -> Option<Self> { Some((A::get(c)?, B::get(c)?)) }
}
impl<T: Ty, const N: usize> Ty for [T; N] {
	fn table(n: &mut Nodes) -> u16 { let a = T::table(n); push(n, [9, a, N as u16]) }
	fn put(&self, out: &mut Vec<u64>) { self.iter().for_each(|x| x.put(out)) }
	fn get(c: &mut Cells) -> Option<Self> {
		(0..N).map(|_| T::get(c)).collect::<Option<Vec<T>>>()?.try_into().ok()
	}
}
impl<T: Ty> Ty for Vec<T> {
	fn table(n: &mut Nodes) -> u16 { let a = T::table(n); push(n, [10, a, 0]) }
	fn put(&self, out: &mut Vec<u64>) { out.push(self.len() as u64); self.iter().for_each(|x| x.put(out)) }
	fn get(c: &mut Cells) -> Option<Self> { (0..c.next()?).map(|_| T::get(c)).collect() }
}
impl Ty for BitVec<u8, Lsb0> {
	fn table(n: &mut Nodes) -> u16 { push(n, [11, 0, 0]) }
	fn put(&self, out: &mut Vec<u64>) {
		let n = self.len();
		out.push(n as u64);
		for c in 0..n.div_ceil(64) {
			out.push((c * 64..n.min(c * 64 + 64)).map(|i| (self.as_bitslice().get(i) as u64) << (i % 64)).sum());
		}
	}
	fn get(c: &mut Cells) -> Option<Self> {
		let n = c.next()? as usize;
		let w = (0..n.div_ceil(64)).map(|_| c.next()).collect::<Option<Vec<u64>>>()?;
		if n % 64 != 0 && w[n / 64] >> (n % 64) != 0 {
			return None;
		}
		Some(BitVec::from_bools((0..n).map(|i| w[i / 64] >> (i % 64) & 1 == 1).collect()))
	}
}

/// Two types that hold themselves, read and written field by field as derived code does it.
struct Cage(Vec<Cage>);
impl Decode for Cage {
	fn decode<I: Input>(input: &mut I) -> Result<Self, Error> { Ok(Cage(Vec::decode(input)?)) }
}
impl Encode for Cage {
	fn encode_to<W: Output + ?Sized>(&self, dest: &mut W) { self.0.encode_to(dest) }
}
impl Ty for Cage {
	fn table(n: &mut Nodes) -> u16 { let own = n.len() as u16; push(n, [10, own, 0]) }
	fn put(&self, out: &mut Vec<u64>) { self.0.put(out) }
	fn get(c: &mut Cells) -> Option<Self> { Ty::get(c).map(Cage) }
}
struct Tree(u8, Vec<Tree>);
impl Decode for Tree {
	fn decode<I: Input>(input: &mut I) -> Result<Self, Error> { Ok(Tree(u8::decode(input)?, Vec::decode(input)?)) }
}
impl Encode for Tree {
	fn encode_to<W: Output + ?Sized>(&self, dest: &mut W) { self.0.encode_to(dest); self.1.encode_to(dest) }
}
impl Ty for Tree {
	fn table(n: &mut Nodes) -> u16 {
		let (a, b) = (u8::table(n), n.len() as u16);
		push(n, [10, b + 1, 0]);
		push(n, [8, a, b])
	}
	fn put(&self, out: &mut Vec<u64>) { self.0.put(out); self.1.put(out) }
	fn get(c: &mut Cells) -> Option<Self> { Some(Tree(Ty::get(c)?, Ty::get(c)?)) }
}

struct Entry {
	name: &'static str,
	table: fn() -> String,
	dec: fn(u32, usize, &[u8]) -> String,
	enc: fn(&[u64]) -> String,
	max: Option<fn() -> usize>,
}

fn table_of<T: Ty>() -> String {
	let mut n = vec![];
	T::table(&mut n);
	table_hex(&n)
}
fn dec_of<T: Ty>(d: u32, m: usize, b: &[u8]) -> String {
	let mut s = b;
	let mut counted = CountedInput::new(&mut s);
	let mut mem = MemTrackingInput::new(&mut counted, m);
	let r = T::decode_with_depth_limit(d, &mut mem);
	let used = mem.used_mem();
	let n = counted.count();
	match r {
		Ok(v) => {
			let mut c = vec![];
			v.put(&mut c);
			format!("ok {n} {used} {} {}", c.len(), join(&c))
		},
		Err(e) => format!("err {n} {used} {}", msg(&e)),
	}
}
fn enc_of<T: Ty>(c: &[u64]) -> String {
	let mut c = Cells(c);
	match T::get(&mut c) {
		Some(v) if c.0.is_empty() => {
			let e = v.encode();
			if v.encoded_size() != e.len() || v.using_encoded(|x| x.to_vec()) != e {
				return "inconsistent".into();
			}
			format!("ok {}", hex(&e))
		},
		_ => "bad cells".into(),
	}
}

macro_rules! entries {
	(max { $($m:ty;)* } nomax { $($t:ty;)* }) => {
		const ENTRIES: &[Entry] = &[
			$(Entry { name: stringify!($m), table: table_of::<$m>, dec: dec_of::<$m>, enc: enc_of::<$m>, max: Some(<$m as MaxEncodedLen>::max_encoded_len) },)*
			$(Entry { name: stringify!($t), table: table_of::<$t>, dec: dec_of::<$t>, enc: enc_of::<$t>, max: None },)*
		];
	};
}

entries! {
	max {
		(); bool; u8; u16; u32; u64; u128; i8; i16; i32; i64; i128;
		Compact<u8>; Compact<u16>; Compact<u32>; Compact<u64>; Compact<u128>;
		Option<()>; Option<bool>; Option<u8>; Option<u64>; Option<u128>; Option<Option<bool>>;
		Option<Compact<u8>>; Option<Compact<u32>>; Option<Compact<u128>>;
		Result<(), ()>; Result<u8, u32>; Result<u32, u8>; Result<(), Compact<u64>>; Result<bool, Option<u16>>;
		Result<Result<u8, u16>, Compact<u16>>;
		((), ()); (u8, u16); (bool, Compact<u32>); (Compact<u8>, Compact<u128>); ((u8, u16), (u32, u64));
		(Option<u8>, Result<u16, bool>);
		[(); 1]; [(); 65535]; [u8; 1]; [u8; 2]; [u8; 32]; [u8; 65535]; [u16; 3]; [u32; 4]; [u64; 5]; [u128; 2];
		[bool; 8]; [Compact<u8>; 3]; [Compact<u16>; 3]; [Compact<u32>; 7]; [Compact<u64>; 2]; [Compact<u128>; 65535];
		[[u8; 3]; 4]; [Option<u16>; 5]; [(u8, Compact<u16>); 3]; [Result<u8, Compact<u32>>; 2];
		Option<[u32; 3]>; Result<[u8; 9], [Compact<u64>; 2]>; ([bool; 3], [Option<Compact<u8>>; 300]);
	}
	nomax {
		OptionBool; f32; f64; Option<OptionBool>; Option<f32>; (f32, f64); [f32; 3]; [f64; 2]; [OptionBool; 4];
		Vec<()>; Vec<bool>; Vec<OptionBool>; Vec<u8>; Vec<u16>; Vec<u32>; Vec<u64>; Vec<u128>;
		Vec<i8>; Vec<i16>; Vec<i32>; Vec<i64>; Vec<i128>; Vec<f32>; Vec<f64>;
		Vec<Compact<u8>>; Vec<Compact<u16>>; Vec<Compact<u32>>; Vec<Compact<u64>>; Vec<Compact<u128>>;
		Vec<Option<bool>>; Vec<Option<u16>>; Vec<Result<u8, u32>>; Vec<(u8, u16)>; Vec<[u8; 3]>; Vec<[u16; 2]>;
		Vec<[bool; 2]>; Vec<[u8; 16384]>;
		Vec<Vec<u8>>; Vec<Vec<u16>>; Vec<Vec<Vec<u8>>>; Vec<Vec<Vec<bool>>>; Vec<Vec<bool>>; Vec<Option<Vec<u32>>>;
		Option<Vec<u8>>; Result<Vec<u8>, Vec<u16>>; (Vec<u8>, Vec<u16>); (u8, Vec<Compact<u32>>); [Vec<u8>; 2];
		[Vec<bool>; 3]; Option<Vec<(Compact<u32>, Vec<OptionBool>)>>;
		BitVec<u8, Lsb0>; Vec<BitVec<u8, Lsb0>>; Option<BitVec<u8, Lsb0>>; (BitVec<u8, Lsb0>, u8);
		Cage; Option<Cage>; (u16, Cage); Tree; Option<Tree>;
	}
}

pub fn short(s: &str) -> String {
	s.replace(' ', "").replace("BitVec<u8,Lsb0>", "BitVec")
}
pub fn names() -> Vec<String> {
	ENTRIES.iter().map(|e| short(e.name)).collect()
}
fn find(t: &str) -> Option<&'static Entry> {
	ENTRIES.iter().find(|e| short(e.name) == t)
}
pub fn table(t: &str) -> String {
	find(t).map_or("bad type".into(), |e| format!("ok {}", (e.table)()))
}
pub fn max(t: &str) -> String {
	match find(t) {
		Some(Entry { max: Some(m), .. }) => format!("ok {}", m()),
		Some(_) => "none".into(),
		None => "bad type".into(),
	}
}
pub fn dec(t: &str, d: &str, m: &str, h: &str) -> String {
	match (find(t), d.parse(), m.parse(), unhex(h)) {
		(Some(e), Ok(d), Ok(m), Some(b)) => (e.dec)(d, m, &b),
		_ => "bad request".into(),
	}
}
pub fn enc(t: &str, c: &str) -> String {
	match (find(t), list(c)) {
		(Some(e), Some(c)) => (e.enc)(&c),
		_ => "bad request".into(),
	}
}
