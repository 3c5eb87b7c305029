#!/bin/sh
# Builds build/scale-oracle from the crate's text in crate/src, with rustc (1.80 or later) and nothing else.
#   RUSTC               another compiler
#   ALLOW_OTHER_TEXT=1  build although the text isn't the one of crate/SHA256SUMS
set -eu
cd "$(dirname "$0")"
rustc=${RUSTC:-rustc}
command -v "$rustc" >/dev/null || { echo "build.sh: $rustc is missing; Rust 1.80 or later is needed" >&2; exit 1; }
(cd crate/src && sha256sum --quiet -c ../SHA256SUMS) || {
	echo "build.sh: the text in crate/src isn't the one of crate/SHA256SUMS" >&2
	[ "${ALLOW_OTHER_TEXT:-0}" = 1 ] || exit 1
}

# The text, byte for byte, with the scaffolding beside it and never over it.
mkdir -p build/scale/src
cp crate/src/*.rs build/scale/src/
for f in scaffold/*.rs; do
	[ ! -e "crate/src/${f##*/}" ] || { echo "build.sh: $f would hide a file of the crate" >&2; exit 1; }
	cp "$f" build/scale/src/
done
echo "Scaffolding: lib.rs includes this file as its documentation." >build/scale/README.md

# --cap-lints keeps warnings about text that isn't ours to change out of sight.
compile() { "$rustc" --edition 2021 -L build "$@"; }
compile --out-dir build --crate-type proc-macro --crate-name impl_trait_for_tuples standins/impl_trait_for_tuples.rs
for name in arrayvec byte_slice_cast const_format bitvec; do
	compile --out-dir build --crate-type rlib --crate-name "$name" -O standins/"$name".rs
done
# A release build in which a sum that overflows panics, as it would in a test of the crate.
compile --out-dir build --crate-type rlib --crate-name parity_scale_codec -O -C overflow-checks=on --cap-lints allow \
	--cfg 'feature="std"' --cfg 'feature="chain-error"' --cfg 'feature="max-encoded-len"' --cfg 'feature="bit-vec"' \
	--extern arrayvec --extern byte_slice_cast --extern const_format --extern bitvec --extern impl_trait_for_tuples build/scale/src/lib.rs
compile --crate-type bin --crate-name scale_oracle -O -C overflow-checks=on --extern parity_scale_codec --extern bitvec -o build/scale-oracle oracle/main.rs
echo "built: $(pwd)/build/scale-oracle"
