//! Stands in for the crate `impl-trait-for-tuples`. It handles the two uses in the crate's text
//! (max_encoded_len.rs and mem_tracking.rs):
//!   #[impl_for_tuples(N)] impl TRAIT for Tuple { .. for_tuples!( #( STATEMENTS )* ); .. }
//! For each k in 0..=N one `impl<T0: TRAIT, ..> TRAIT for (T0, ..,)`; the statements are repeated
//! with `Tuple` replaced by T0, T1, .. in this order. What the real macro makes of them was not seen.
extern crate proc_macro;
use proc_macro::{Delimiter, Group, Ident, Span, TokenStream, TokenTree};

#[proc_macro_attribute]
pub fn impl_for_tuples(attr: TokenStream, item: TokenStream) -> TokenStream {
	let n: usize = attr.to_string().trim().parse().expect("impl_for_tuples(N)");
	let toks: Vec<TokenTree> = item.into_iter().collect();
	let (body, head) = toks.split_last().expect("impl block");
	let TokenTree::Group(body) = body else { panic!("impl block") };
	let head: Vec<String> = head.iter().map(|t| t.to_string()).collect();
	assert!(
		head.len() == 4 && head[0] == "impl" && head[2] == "for" && head[3] == "Tuple",
		"stand-in handles only `impl TRAIT for Tuple`"
	);
	let mut out = TokenStream::new();
	for k in 0..=n {
		let generics: String = (0..k).map(|i| format!("T{i}: {},", head[1])).collect();
		let tuple: String = (0..k).map(|i| format!("T{i},")).collect();
		let h: TokenStream = format!("impl<{generics}> {} for ({tuple})", head[1]).parse().unwrap();
		out.extend(h);
		out.extend([TokenTree::Group(Group::new(Delimiter::Brace, expand(body.stream(), k)))]);
	}
	out
}

/// Copy `s`, with each `for_tuples!( #( X )* );` replaced by X once for each of T0..Tk.
fn expand(s: TokenStream, k: usize) -> TokenStream {
	let t: Vec<TokenTree> = s.into_iter().collect();
	let mut out: Vec<TokenTree> = vec![];
	let mut i = 0;
	while i < t.len() {
		if t[i].to_string() == "for_tuples" {
			assert!(t[i + 1].to_string() == "!" && t[i + 3].to_string() == ";");
			let TokenTree::Group(g) = &t[i + 2] else { panic!("for_tuples!(..)") };
			let inner: Vec<TokenTree> = g.stream().into_iter().collect();
			assert!(inner.len() == 3 && inner[0].to_string() == "#" && inner[2].to_string() == "*");
			let TokenTree::Group(rep) = &inner[1] else { panic!("#( .. )*") };
			for j in 0..k {
				out.extend(subst(rep.stream(), j));
			}
			i += 4;
			continue;
		}
		match &t[i] {
			TokenTree::Group(g) => {
				out.push(TokenTree::Group(Group::new(g.delimiter(), expand(g.stream(), k))))
			},
			x => out.push(x.clone()),
		}
		i += 1;
	}
	out.into_iter().collect()
}

fn subst(s: TokenStream, j: usize) -> TokenStream {
	s.into_iter()
		.map(|t| match t {
			TokenTree::Ident(id) if id.to_string() == "Tuple" =>
				TokenTree::Ident(Ident::new(&format!("T{j}"), Span::call_site())),
			TokenTree::Group(g) => TokenTree::Group(Group::new(g.delimiter(), subst(g.stream(), j))),
			x => x,
		})
		.collect()
}
