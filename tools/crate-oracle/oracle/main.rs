//! Answers requests, line by line, by the text of parity-scale-codec 3.7.5 in ../crate. ../README.md
//! lists the requests and says what each answer rests on.
mod fixed;
mod table;

use parity_scale_codec::{
	Compact, CompactLen, CountedInput, Decode, DecodeLimit, DecodeWithMemTracking, Encode,
	EncodeAppend, EncodeLike, Error, Input, MaxEncodedLen, MemTrackingInput,
};
use std::{
	cell::RefCell,
	io::{BufRead, Write},
	panic::{catch_unwind, AssertUnwindSafe},
};

pub fn unhex(s: &str) -> Option<Vec<u8>> {
	if s == "-" {
		return Some(vec![]);
	}
	if s.len() % 2 != 0 || !s.is_ascii() {
		return None;
	}
	(0..s.len() / 2).map(|i| u8::from_str_radix(&s[2 * i..2 * i + 2], 16).ok()).collect()
}

pub fn hex(b: &[u8]) -> String {
	if b.is_empty() {
		return "-".into();
	}
	b.iter().map(|x| format!("{x:02x}")).collect()
}

/// The crate's message on one line: causes follow after " | ".
pub fn msg(e: &Error) -> String {
	e.to_string().lines().map(|l| l.trim_matches('\t').trim_end_matches(':')).collect::<Vec<_>>().join(" | ")
}

pub fn list<T: std::str::FromStr>(s: &str) -> Option<Vec<T>> {
	if s == "-" {
		return Some(vec![]);
	}
	s.split(',').map(|x| x.parse().ok()).collect()
}

pub fn join(c: &[u64]) -> String {
	if c.is_empty() {
		return "-".into();
	}
	c.iter().map(|x| x.to_string()).collect::<Vec<_>>().join(",")
}

fn cdec<T>(b: &[u8]) -> String
where
	Compact<T>: Decode,
	T: std::fmt::Display,
{
	let mut s = b;
	let mut i = CountedInput::new(&mut s);
	let r = Compact::<T>::decode(&mut i);
	let n = i.count();
	match r {
		Ok(Compact(v)) => format!("ok {v} {n}"),
		Err(e) => format!("err {n} {}", msg(&e)),
	}
}

fn cenc<T>(v: &str) -> String
where
	T: std::str::FromStr,
	Compact<T>: Encode + CompactLen<T>,
{
	let Ok(v) = v.parse::<T>() else { return "bad value".into() };
	let n = Compact::<T>::compact_len(&v);
	let c = Compact(v);
	let e = c.encode();
	let mut to = vec![];
	c.encode_to(&mut to);
	let us = c.using_encoded(|x| x.to_vec());
	if e != to || e != us || c.encoded_size() != n || c.size_hint() != n {
		return "inconsistent".into();
	}
	format!("ok {} {n}", hex(&e))
}

fn app<T>(used: &str, items: &str) -> String
where
	T: Encode + EncodeLike + std::str::FromStr,
{
	let (Some(u), Some(it)) = (unhex(used), list::<T>(items)) else { return "bad request".into() };
	match <Vec<T> as EncodeAppend>::append_or_new(u, it.iter()) {
		Ok(v) => format!("ok {}", hex(&v)),
		Err(e) => format!("err {}", msg(&e)),
	}
}

#[derive(Clone, Copy)]
enum Op {
	Down,
	Up,
	Charge(usize),
	Read(usize),
	Byte,
}
thread_local! {
	static OPS: RefCell<Vec<Op>> = const { RefCell::new(vec![]) };
	static DONE: RefCell<usize> = const { RefCell::new(0) };
	static NOTES: RefCell<String> = const { RefCell::new(String::new()) };
}

/// A type whose decoder calls the given list of hooks and stops, as the crate's decoders do, at the
/// first refusal.
struct Script;
impl Decode for Script {
	fn decode<I: Input>(input: &mut I) -> Result<Self, Error> {
		for op in OPS.with_borrow(|o| o.clone()) {
			match op {
				Op::Down => input.descend_ref()?,
				Op::Up => input.ascend_ref(),
				Op::Charge(n) => input.on_before_alloc_mem(n)?,
				Op::Read(n) => input.read(&mut vec![0; n])?,
				Op::Byte => input.read_byte().map(|_| ())?,
			}
			DONE.with_borrow_mut(|d| *d += 1);
		}
		Ok(Script)
	}
}
impl DecodeWithMemTracking for Script {}

/// The same, but going on after a refusal, and noting each answer.
struct ScriptOn;
impl Decode for ScriptOn {
	fn decode<I: Input>(input: &mut I) -> Result<Self, Error> {
		for op in OPS.with_borrow(|o| o.clone()) {
			let r = match op {
				Op::Down => input.descend_ref(),
				Op::Up => Ok(input.ascend_ref()),
				Op::Charge(n) => input.on_before_alloc_mem(n),
				Op::Read(n) => input.read(&mut vec![0; n]),
				Op::Byte => input.read_byte().map(|_| ()),
			};
			NOTES.with_borrow_mut(|d| d.push(if r.is_ok() { '.' } else { 'x' }));
		}
		Ok(ScriptOn)
	}
}

fn ops(s: &str) -> Option<Vec<Op>> {
	if s == "-" {
		return Some(vec![]);
	}
	s.split(',')
		.map(|o| {
			Some(match (&o[..1], &o[1..]) {
				("d", "") => Op::Down,
				("a", "") => Op::Up,
				("b", "") => Op::Byte,
				("c", n) => Op::Charge(n.parse().ok()?),
				("r", n) => Op::Read(n.parse().ok()?),
				_ => return None,
			})
		})
		.collect()
}

/// Both counters, and the byte counter, over one list.
fn ctr(d: &str, m: &str, bytes: &str, o: &str) -> String {
	let (Ok(d), Ok(m), Some(b), Some(o)) = (d.parse::<u32>(), m.parse::<usize>(), unhex(bytes), ops(o))
	else {
		return "bad request".into();
	};
	OPS.set(o);
	DONE.set(0);
	let mut s = &b[..];
	let mut counted = CountedInput::new(&mut s);
	let mut mem = MemTrackingInput::new(&mut counted, m);
	let r = Script::decode_with_depth_limit(d, &mut mem);
	let used = mem.used_mem();
	let n = counted.count();
	let done = DONE.with_borrow(|d| *d);
	match r {
		Ok(_) => format!("ok {done} {used} {n}"),
		Err(e) => format!("err {done} {used} {n} {}", msg(&e)),
	}
}

/// All of the list, whatever is refused.
fn ctron(d: &str, m: &str, bytes: &str, o: &str) -> String {
	let (Ok(d), Ok(m), Some(b), Some(o)) = (d.parse::<u32>(), m.parse::<usize>(), unhex(bytes), ops(o))
	else {
		return "bad request".into();
	};
	OPS.set(o);
	NOTES.set(String::new());
	let mut s = &b[..];
	let mut counted = CountedInput::new(&mut s);
	let mut mem = MemTrackingInput::new(&mut counted, m);
	let _ = ScriptOn::decode_with_depth_limit(d, &mut mem);
	let used = mem.used_mem();
	format!("ok {} {used} {}", NOTES.with_borrow(|n| n.clone()), counted.count())
}

fn by_width(w: &str, f: [&dyn Fn() -> String; 5]) -> String {
	match w {
		"1" => f[0](),
		"2" => f[1](),
		"4" => f[2](),
		"8" => f[3](),
		"16" => f[4](),
		_ => "bad width".into(),
	}
}

fn answer(line: &str) -> String {
	let q: Vec<&str> = line.split_ascii_whitespace().collect();
	match q[..] {
		["cdec", w, h] => {
			let Some(b) = unhex(h) else { return "bad request".into() };
			by_width(w, [&|| cdec::<u8>(&b), &|| cdec::<u16>(&b), &|| cdec::<u32>(&b), &|| cdec::<u64>(&b), &|| cdec::<u128>(&b)])
		},
		["cenc", w, v] => by_width(w, [&|| cenc::<u8>(v), &|| cenc::<u16>(v), &|| cenc::<u32>(v), &|| cenc::<u64>(v), &|| cenc::<u128>(v)]),
		["cmax", w] => {
			fn m<T>() -> String where Compact<T>: MaxEncodedLen {
				format!("ok {}", Compact::<T>::max_encoded_len())
			}
			by_width(w, [&m::<u8>, &m::<u16>, &m::<u32>, &m::<u64>, &m::<u128>])
		},
		["app", w, u, i] => by_width(w, [&|| app::<u8>(u, i), &|| app::<u16>(u, i), &|| app::<u32>(u, i), &|| app::<u64>(u, i), &|| app::<u128>(u, i)]),
		// k units appended: the one item of which 2^32 and more can be had
		["appunits", u, k] => {
			let (Some(u), Ok(k)) = (unhex(u), k.parse::<usize>()) else { return "bad request".into() };
			match <Vec<()> as EncodeAppend>::append_or_new(u, vec![(); k].iter()) {
				Ok(v) => format!("ok {}", hex(&v)),
				Err(e) => format!("err {}", msg(&e)),
			}
		},
		// a vector of k units written
		["encunits", k] => {
			let Ok(k) = k.parse::<usize>() else { return "bad request".into() };
			format!("ok {}", hex(&vec![(); k].encode()))
		},
		// a vector of units read: count and bytes only
		["decunits", h] => {
			let Some(b) = unhex(h) else { return "bad request".into() };
			let mut s = &b[..];
			let mut i = CountedInput::new(&mut s);
			let r = Vec::<()>::decode(&mut i);
			let n = i.count();
			match r {
				Ok(v) => format!("ok {} {n}", v.len()),
				Err(e) => format!("err {n} {}", msg(&e)),
			}
		},
		// k zero bits written
		["encbits", k] => {
			let Ok(k) = k.parse::<usize>() else { return "bad request".into() };
			let v = bitvec::vec::BitVec::<u8, bitvec::order::Lsb0>::from_bools(vec![false; k]);
			format!("ok {}", hex(&v.encode()))
		},
		["ctr", d, m, b, o] => ctr(d, m, b, o),
		["ctron", d, m, b, o] => ctron(d, m, b, o),
		["types"] => fixed::names().join(" "),
		["stable", t] => fixed::table(t),
		["smax", t] => fixed::max(t),
		["sdec", t, d, m, h] => fixed::dec(t, d, m, h),
		["senc", t, c] => fixed::enc(t, c),
		["tmax", t] => table::max(t),
		["tdec", t, h] => table::dec(t, h, false),
		["tall", t, h] => table::dec(t, h, true),
		["tenc", t, c] => table::enc(t, c),
		["tapp", t, u, k, c] => table::app(t, u, k, c),
		_ => "bad request".into(),
	}
}

thread_local! { static PANIC: RefCell<String> = const { RefCell::new(String::new()) }; }

fn main() {
	std::panic::set_hook(Box::new(|p| {
		let m = p.payload();
		let m = m
			.downcast_ref::<&str>()
			.map(|s| s.to_string())
			.or_else(|| m.downcast_ref::<String>().cloned())
			.unwrap_or_default();
		PANIC.set(m.replace('\n', " "));
	}));
	// large arrays are decoded on the stack
	std::thread::Builder::new()
		.stack_size(512 << 20)
		.spawn(|| {
			let out = std::io::stdout();
			let mut out = std::io::BufWriter::new(out.lock());
			for line in std::io::stdin().lock().lines() {
				let line = line.expect("line");
				if line.is_empty() || line.starts_with('#') {
					continue;
				}
				let a = catch_unwind(AssertUnwindSafe(|| answer(&line)))
					.unwrap_or_else(|_| format!("panic {}", PANIC.with_borrow(|p| p.clone())));
				writeln!(out, "{a}").expect("write");
			}
		})
		.expect("thread")
		.join()
		.expect("join");
}
