//! Any type table of docs/RULES.md. Each node is decoded, encoded and measured by the crate's own impl
//! for Option, Result, pairs, arrays, vectors and leaves. This file adds which impl stands for which
//! node (two item types, `A` and `B`, that look their node up), how values become cells, and a bound
//! on the work of one request.
use crate::{hex, join, list, msg, fixed::*, unhex};
use bitvec::{order::Lsb0, vec::BitVec};
use parity_scale_codec::{
	Compact, CountedInput, Decode, DecodeAll, Encode, EncodeAppend, EncodeLike, Error, Input,
	MaxEncodedLen, OptionBool, Output,
};
use std::cell::RefCell;

thread_local! {
	static NODES: RefCell<Nodes> = const { RefCell::new(vec![]) };
	/// The nodes on the way from the root to the item that is being read.
	static PATH: RefCell<Vec<u16>> = const { RefCell::new(vec![]) };
	/// Items looked up so far for this request.
	static STEPS: RefCell<usize> = const { RefCell::new(0) };
	/// Longest lengths found so far, by node.
	static LONGEST: RefCell<Vec<Option<usize>>> = const { RefCell::new(vec![]) };
}
const NO_ARRAY: &str = "ORACLE: array length not built";
const NO_LONGEST: &str = "ORACLE: no MaxEncodedLen in the crate";
/// A few bytes can stand for 2^32 items without bytes, or for far more. Above these bounds the oracle
/// declines; nothing that a message of some kilobytes spells out comes near them.
const MOST_STEPS: usize = 1 << 20;
const MOST_CELLS: usize = 1 << 20;
const TOO_MANY: &str = "ORACLE: too many items";

type Bits = BitVec<u8, Lsb0>;

/// A value of some node.
pub enum Val {
	Unit,
	Bool(bool),
	OptBool(OptionBool),
	U8(u8),
	U16(u16),
	U32(u32),
	U64(u64),
	U128(Box<u128>),
	C8(Compact<u8>),
	C16(Compact<u16>),
	C32(Compact<u32>),
	C64(Compact<u64>),
	C128(Box<Compact<u128>>),
	F32(f32),
	F64(f64),
	Opt(Box<Option<A>>),
	Res(Box<Result<A, B>>),
	Pair(Box<(A, B)>),
	Arr(Seq),
	Vect(Seq),
	Bit(Bits),
}
/// Items, with the crate's bulk types kept apart since it treats them apart.
pub enum Seq {
	Unit(Vec<()>),
	Bool(Vec<bool>),
	U8(Vec<u8>),
	U16(Vec<u16>),
	U32(Vec<u32>),
	U64(Vec<u64>),
	U128(Vec<u128>),
	F32(Vec<f32>),
	F64(Vec<f64>),
	Any(Vec<A>),
}

/// The item at the first child of the node on top of PATH, and the one at its second child.
pub struct A(pub Val);
pub struct B(pub Val);
/// The item at the root.
pub struct Root(pub Val);
/// A unit in a vector, counted as it is read: a head of five bytes can claim 2^32 of them.
struct Unit;

fn node(i: u16) -> [u16; 3] {
	NODES.with_borrow(|n| n[i as usize])
}
fn top() -> [u16; 3] {
	node(PATH.with_borrow(|p| *p.last().expect("path")))
}
fn within<R>(i: u16, f: impl FnOnce() -> R) -> R {
	PATH.with_borrow_mut(|p| p.push(i));
	let r = f();
	PATH.with_borrow_mut(|p| p.pop());
	r
}

fn step() -> Result<(), Error> {
	STEPS.with_borrow_mut(|n| {
		*n += 1;
		if *n > MOST_STEPS { Err(TOO_MANY.into()) } else { Ok(()) }
	})
}

impl Decode for Unit {
	fn decode<I: Input>(input: &mut I) -> Result<Self, Error> {
		step()?;
		<()>::decode(input).map(|()| Unit)
	}
}
impl Decode for A {
	fn decode<I: Input>(input: &mut I) -> Result<Self, Error> {
		step()?;
		let i = top()[1];
		Ok(A(within(i, || read(input))?))
	}
}
impl Decode for B {
	fn decode<I: Input>(input: &mut I) -> Result<Self, Error> {
		step()?;
		let i = top()[2];
		Ok(B(within(i, || read(input))?))
	}
}
impl Decode for Root {
	fn decode<I: Input>(input: &mut I) -> Result<Self, Error> {
		let i = NODES.with_borrow(|n| n.len() as u16 - 1);
		Ok(Root(within(i, || read(input))?))
	}
}

macro_rules! by_length {
	($n:expr, $f:ident, $t:ty, $x:tt; $($k:literal)*) => {
		match $n { $($k => $f::<$t, $k> $x,)* _ => Err(NO_ARRAY.into()) }
	};
}
macro_rules! length {
	($n:expr, $f:ident, $t:ty, $x:tt) => {
		by_length!($n, $f, $t, $x;
			1 2 3 4 5 6 7 8 9 10 11 12 13 14 15 16 17 18 19 20 21 22 23 24 25 26 27 28 29 30 31 32
			33 34 35 36 37 38 39 40 41 42 43 44 45 46 47 48 49 50 51 52 53 54 55 56 57 58 59 60 61
			62 63 64 65 66 67 68 69 70 71 72 100 127 128 129 200 255 256 257 300 500 511 512 513
			1000 1024 4095 4096 4097 16383 16384 16385 32767 32768 65534 65535)
	};
}
fn arr<T: Decode, const N: usize>(input: &mut impl Input) -> Result<Vec<T>, Error> {
	Ok(Vec::from(<[T; N]>::decode(input)?))
}
fn put_arr<T: Encode, const N: usize>(s: &[T], mut dest: impl FnMut(&[u8])) -> Result<(), Error> {
	let a: &[T; N] = s.try_into().expect("length");
	dest(&a.encode());
	Ok(())
}

/// Read the item of the node on top of PATH, by the crate's impl for it.
fn read<I: Input>(input: &mut I) -> Result<Val, Error> {
	let [kind, a, b] = top();
	Ok(match (kind, a) {
		(0, _) => { <()>::decode(input)?; Val::Unit },
		(1, _) => Val::Bool(bool::decode(input)?),
		(2, _) => Val::OptBool(OptionBool::decode(input)?),
		(3, 1) => Val::U8(u8::decode(input)?),
		(3, 2) => Val::U16(u16::decode(input)?),
		(3, 4) => Val::U32(u32::decode(input)?),
		(3, 8) => Val::U64(u64::decode(input)?),
		(3, _) => Val::U128(Box::new(u128::decode(input)?)),
		(4, 1) => Val::C8(Compact::<u8>::decode(input)?),
		(4, 2) => Val::C16(Compact::<u16>::decode(input)?),
		(4, 4) => Val::C32(Compact::<u32>::decode(input)?),
		(4, 8) => Val::C64(Compact::<u64>::decode(input)?),
		(4, _) => Val::C128(Box::new(Compact::<u128>::decode(input)?)),
		(5, 4) => Val::F32(f32::decode(input)?),
		(5, _) => Val::F64(f64::decode(input)?),
		(6, _) => Val::Opt(Box::new(Option::<A>::decode(input)?)),
		(7, _) => Val::Res(Box::new(Result::<A, B>::decode(input)?)),
		(8, _) => Val::Pair(Box::new(<(A, B)>::decode(input)?)),
		(9, _) => Val::Arr(match node(a) {
			[0, ..] => Seq::Unit(length!(b, arr, (), (input))?),
			[1, ..] => Seq::Bool(length!(b, arr, bool, (input))?),
			[3, 1, _] => Seq::U8(length!(b, arr, u8, (input))?),
			[3, 2, _] => Seq::U16(length!(b, arr, u16, (input))?),
			[3, 4, _] => Seq::U32(length!(b, arr, u32, (input))?),
			[3, 8, _] => Seq::U64(length!(b, arr, u64, (input))?),
			[3, ..] => Seq::U128(length!(b, arr, u128, (input))?),
			[5, 4, _] => Seq::F32(length!(b, arr, f32, (input))?),
			[5, ..] => Seq::F64(length!(b, arr, f64, (input))?),
			_ => Seq::Any(length!(b, arr, A, (input))?),
		}),
		(10, _) => Val::Vect(match node(a) {
			[0, ..] => Seq::Unit(vec![(); Vec::<Unit>::decode(input)?.len()]),
			[1, ..] => Seq::Bool(Vec::decode(input)?),
			[3, 1, _] => Seq::U8(Vec::decode(input)?),
			[3, 2, _] => Seq::U16(Vec::decode(input)?),
			[3, 4, _] => Seq::U32(Vec::decode(input)?),
			[3, 8, _] => Seq::U64(Vec::decode(input)?),
			[3, ..] => Seq::U128(Vec::decode(input)?),
			[5, 4, _] => Seq::F32(Vec::decode(input)?),
			[5, ..] => Seq::F64(Vec::decode(input)?),
			_ => Seq::Any(Vec::decode(input)?),
		}),
		_ => Val::Bit(Bits::decode(input)?),
	})
}

macro_rules! each_val {
	($s:expr, $x:ident => $e:expr, arr $q:ident => $f:expr) => {
		match $s {
			Val::Unit => { let $x = &(); $e },
			Val::Bool($x) => $e,
			Val::OptBool($x) => $e,
			Val::U8($x) => $e,
			Val::U16($x) => $e,
			Val::U32($x) => $e,
			Val::U64($x) => $e,
			Val::U128($x) => { let $x = &**$x; $e },
			Val::C8($x) => $e,
			Val::C16($x) => $e,
			Val::C32($x) => $e,
			Val::C64($x) => $e,
			Val::C128($x) => { let $x = &**$x; $e },
			Val::F32($x) => $e,
			Val::F64($x) => $e,
			Val::Opt($x) => { let $x = &**$x; $e },
			Val::Res($x) => { let $x = &**$x; $e },
			Val::Pair($x) => { let $x = &**$x; $e },
			Val::Bit($x) => $e,
			Val::Vect(Seq::Unit($x)) => $e,
			Val::Vect(Seq::Bool($x)) => $e,
			Val::Vect(Seq::U8($x)) => $e,
			Val::Vect(Seq::U16($x)) => $e,
			Val::Vect(Seq::U32($x)) => $e,
			Val::Vect(Seq::U64($x)) => $e,
			Val::Vect(Seq::U128($x)) => $e,
			Val::Vect(Seq::F32($x)) => $e,
			Val::Vect(Seq::F64($x)) => $e,
			Val::Vect(Seq::Any($x)) => $e,
			Val::Arr($q) => $f,
		}
	};
}

/// Written by the crate's impl for the value's type.
fn write<W: Output + ?Sized>(v: &Val, dest: &mut W) {
	each_val!(v, x => x.encode_to(dest), arr q => write_arr(q, dest).unwrap_or_else(|_: Error| panic!("{NO_ARRAY}")))
}
fn write_arr<W: Output + ?Sized>(q: &Seq, dest: &mut W) -> Result<(), Error> {
	match q {
		Seq::Unit(s) => length!(s.len(), put_arr, (), (s, |b| dest.write(b))),
		Seq::Bool(s) => length!(s.len(), put_arr, bool, (s, |b| dest.write(b))),
		Seq::U8(s) => length!(s.len(), put_arr, u8, (s, |b| dest.write(b))),
		Seq::U16(s) => length!(s.len(), put_arr, u16, (s, |b| dest.write(b))),
		Seq::U32(s) => length!(s.len(), put_arr, u32, (s, |b| dest.write(b))),
		Seq::U64(s) => length!(s.len(), put_arr, u64, (s, |b| dest.write(b))),
		Seq::U128(s) => length!(s.len(), put_arr, u128, (s, |b| dest.write(b))),
		Seq::F32(s) => length!(s.len(), put_arr, f32, (s, |b| dest.write(b))),
		Seq::F64(s) => length!(s.len(), put_arr, f64, (s, |b| dest.write(b))),
		Seq::Any(s) => length!(s.len(), put_arr, A, (s, |b| dest.write(b))),
	}
}
impl Encode for A {
	fn encode_to<W: Output + ?Sized>(&self, dest: &mut W) {
		write(&self.0, dest)
	}
}
impl EncodeLike for A {}
impl Encode for B {
	fn encode_to<W: Output + ?Sized>(&self, dest: &mut W) {
		write(&self.0, dest)
	}
}
impl Encode for Root {
	fn encode_to<W: Output + ?Sized>(&self, dest: &mut W) {
		write(&self.0, dest)
	}
}

macro_rules! longest_item { ($($t:ty, $child:literal;)*) => { $(
	impl MaxEncodedLen for $t {
		fn max_encoded_len() -> usize {
			let i = top()[$child];
			if let Some(n) = LONGEST.with_borrow(|l| l[i as usize]) {
				return n;
			}
			let n = within(i, longest);
			LONGEST.with_borrow_mut(|l| l[i as usize] = Some(n));
			n
		}
	}
)* } }
longest_item!(A, 1; B, 2;);
fn longest_arr<T: MaxEncodedLen, const N: usize>() -> Result<usize, Error> {
	Ok(<[T; N]>::max_encoded_len())
}

/// The longest length of the node on top of PATH, by the crate's impl for it.
fn longest() -> usize {
	let [kind, a, b] = top();
	match (kind, a) {
		(0, _) => <()>::max_encoded_len(),
		(1, _) => bool::max_encoded_len(),
		(3, 1) => u8::max_encoded_len(),
		(3, 2) => u16::max_encoded_len(),
		(3, 4) => u32::max_encoded_len(),
		(3, 8) => u64::max_encoded_len(),
		(3, _) => u128::max_encoded_len(),
		(4, 1) => Compact::<u8>::max_encoded_len(),
		(4, 2) => Compact::<u16>::max_encoded_len(),
		(4, 4) => Compact::<u32>::max_encoded_len(),
		(4, 8) => Compact::<u64>::max_encoded_len(),
		(4, _) => Compact::<u128>::max_encoded_len(),
		(6, _) => Option::<A>::max_encoded_len(),
		(7, _) => Result::<A, B>::max_encoded_len(),
		(8, _) => <(A, B)>::max_encoded_len(),
		(9, _) => length!(b, longest_arr, A, ()).unwrap_or_else(|_: Error| panic!("{NO_ARRAY}")),
		// OptionBool, floats, vectors, bit vectors
		_ => panic!("{NO_LONGEST}"),
	}
}

fn seq_cells(q: &Seq, out: &mut Vec<u64>) -> usize {
	macro_rules! each { ($s:expr) => {{ $s.iter().for_each(|x| x.put(out)); $s.len() }} }
	match q {
		Seq::Unit(s) if s.len() > MOST_CELLS || out.len() > MOST_CELLS => panic!("{TOO_MANY}"),
		Seq::Unit(s) => each!(s),
		Seq::Bool(s) => each!(s),
		Seq::U8(s) => each!(s),
		Seq::U16(s) => each!(s),
		Seq::U32(s) => each!(s),
		Seq::U64(s) => each!(s),
		Seq::U128(s) => each!(s),
		Seq::F32(s) => each!(s),
		Seq::F64(s) => each!(s),
		Seq::Any(s) => {
			s.iter().for_each(|x| cells(&x.0, out));
			s.len()
		},
	}
}
fn cells(v: &Val, out: &mut Vec<u64>) {
	match v {
		Val::Unit => ().put(out),
		Val::Bool(x) => x.put(out),
		Val::OptBool(x) => x.put(out),
		Val::U8(x) => x.put(out),
		Val::U16(x) => x.put(out),
		Val::U32(x) => x.put(out),
		Val::U64(x) => x.put(out),
		Val::U128(x) => x.put(out),
		Val::C8(x) => x.put(out),
		Val::C16(x) => x.put(out),
		Val::C32(x) => x.put(out),
		Val::C64(x) => x.put(out),
		Val::C128(x) => x.put(out),
		Val::F32(x) => x.put(out),
		Val::F64(x) => x.put(out),
		Val::Bit(x) => x.put(out),
		Val::Opt(x) => {
			out.push(x.is_some() as u64);
			if let Some(y) = &**x { cells(&y.0, out) }
		},
		Val::Res(x) => match &**x {
			Ok(y) => { out.push(0); cells(&y.0, out) },
			Err(y) => { out.push(1); cells(&y.0, out) },
		},
		Val::Pair(x) => { cells(&x.0 .0, out); cells(&x.1 .0, out) },
		Val::Arr(q) => { seq_cells(q, out); },
		Val::Vect(q) => {
			let at = out.len();
			out.push(0);
			out[at] = seq_cells(q, out) as u64;
		},
	}
}
fn seq_from(child: u16, n: u64, c: &mut Cells) -> Option<Seq> {
	macro_rules! each { ($v:ident) => { Seq::$v((0..n).map(|_| Ty::get(c)).collect::<Option<Vec<_>>>()?) } }
	Some(match node(child) {
		[0, ..] => each!(Unit),
		[1, ..] => each!(Bool),
		[3, 1, _] => each!(U8),
		[3, 2, _] => each!(U16),
		[3, 4, _] => each!(U32),
		[3, 8, _] => each!(U64),
		[3, ..] => each!(U128),
		[5, 4, _] => each!(F32),
		[5, ..] => each!(F64),
		_ => Seq::Any((0..n).map(|_| from(child, c).map(A)).collect::<Option<_>>()?),
	})
}
fn from(i: u16, c: &mut Cells) -> Option<Val> {
	let [kind, a, b] = node(i);
	Some(match (kind, a) {
		(0, _) => { <()>::get(c)?; Val::Unit },
		(1, _) => Val::Bool(Ty::get(c)?),
		(2, _) => Val::OptBool(Ty::get(c)?),
		(3, 1) => Val::U8(Ty::get(c)?),
		(3, 2) => Val::U16(Ty::get(c)?),
		(3, 4) => Val::U32(Ty::get(c)?),
		(3, 8) => Val::U64(Ty::get(c)?),
		(3, _) => Val::U128(Box::new(Ty::get(c)?)),
		(4, 1) => Val::C8(Ty::get(c)?),
		(4, 2) => Val::C16(Ty::get(c)?),
		(4, 4) => Val::C32(Ty::get(c)?),
		(4, 8) => Val::C64(Ty::get(c)?),
		(4, _) => Val::C128(Box::new(Ty::get(c)?)),
		(5, 4) => Val::F32(Ty::get(c)?),
		(5, _) => Val::F64(Ty::get(c)?),
		(6, _) => Val::Opt(Box::new(match c.next()? { 0 => None, 1 => Some(A(from(a, c)?)), _ => return None })),
		(7, _) => Val::Res(Box::new(match c.next()? { 0 => Ok(A(from(a, c)?)), 1 => Err(B(from(b, c)?)), _ => return None })),
		(8, _) => { let x = from(a, c)?; Val::Pair(Box::new((A(x), B(from(b, c)?)))) },
		(9, _) => Val::Arr(seq_from(a, b as u64, c)?),
		(10, _) => { let n = c.next()?; Val::Vect(seq_from(a, n, c)?) },
		_ => Val::Bit(Ty::get(c)?),
	})
}

/// Takes a table that the rules allow (footprints aren't looked at here).
fn set_table(t: &str) -> bool {
	let Some(t) = unhex(t) else { return false };
	if t.len() < 10 || t[..5] != [0x57, 0x54, 0x44, 1, 0] || t[5] == 0 || t[5] > 64 || t.len() != 6 + 4 * t[5] as usize {
		return false;
	}
	let nodes: Nodes = t[6..].chunks(4).map(|c| [c[0] as u16, c[1] as u16, c[2] as u16 | (c[3] as u16) << 8]).collect();
	for (i, &[k, a, b]) in nodes.iter().enumerate() {
		let i = i as u16;
		let int = [1, 2, 4, 8, 16].contains(&a);
		let good = match k {
			0 | 1 | 2 | 11 => a == 0 && b == 0,
			3 | 4 => int && b == 0,
			5 => (a == 4 || a == 8) && b == 0,
			6 => a < i && b == 0,
			7 | 8 => a < i && b < i,
			9 => a < i && b >= 1,
			10 => (a as usize) < nodes.len() && b == 0,
			_ => false,
		};
		if !good {
			return false;
		}
	}
	LONGEST.set(vec![None; nodes.len()]);
	NODES.set(nodes);
	PATH.set(vec![]);
	STEPS.set(0);
	true
}
pub fn dec(t: &str, h: &str, all: bool) -> String {
	let (true, Some(b)) = (set_table(t), unhex(h)) else { return "bad request".into() };
	let mut s = &b[..];
	let (r, n) = if all {
		let r = Root::decode_all(&mut s);
		(r, (b.len() - s.len()) as u64)
	} else {
		let mut i = CountedInput::new(&mut s);
		let r = Root::decode(&mut i);
		(r, i.count())
	};
	match r {
		Ok(v) => {
			let mut c = vec![];
			cells(&v.0, &mut c);
			format!("ok {n} {} {}", c.len(), join(&c))
		},
		Err(e) => format!("err {n} {}", msg(&e)),
	}
}
pub fn max(t: &str) -> String {
	if !set_table(t) {
		return "bad request".into();
	}
	let root = NODES.with_borrow(|n| n.len() as u16 - 1);
	format!("ok {}", within(root, longest))
}
pub fn enc(t: &str, c: &str) -> String {
	let (true, Some(c)) = (set_table(t), list(c)) else { return "bad request".into() };
	let root = NODES.with_borrow(|n| n.len() as u16 - 1);
	let mut c = Cells(&c);
	match from(root, &mut c) {
		Some(v) if c.0.is_empty() => format!("ok {}", hex(&Root(v).encode())),
		_ => "bad cells".into(),
	}
}
pub fn app(t: &str, u: &str, k: &str, c: &str) -> String {
	let (true, Some(u), Ok(k), Some(c)) = (set_table(t), unhex(u), k.parse::<u64>(), list(c)) else {
		return "bad request".into();
	};
	let root = NODES.with_borrow(|n| n.len() as u16 - 1);
	let [10, child, _] = node(root) else { return "bad root".into() };
	let mut c = Cells(&c);
	let items: Option<Vec<A>> = (0..k).map(|_| from(child, &mut c).map(A)).collect();
	match items {
		Some(items) if c.0.is_empty() => match <Vec<A> as EncodeAppend>::append_or_new(u, items.iter()) {
			Ok(v) => format!("ok {}", hex(&v)),
			Err(e) => format!("err {}", msg(&e)),
		},
		_ => "bad cells".into(),
	}
}
