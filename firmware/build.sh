#!/bin/sh
# Builds the libraries where they are not built, and both examples, and runs them; both must print the same. Where rustc has no Rust
# library for x86-64, the example in Rust is run as a program of this processor over a stand-in for the libraries, made from the
# independent model, and a line says so.
set -eu
cd "$(dirname "$0")"
. ./tools.sh
library
out=out
echo "example.c:"
sh ./example.sh

target=x86_64-unknown-linux-gnu
if ! command -v rustc >/dev/null; then
    echo "missing: rustc (example.rs is not built)"
    exit 0
fi
if ls "$(rustc --print target-libdir --target "$target")"/libstd-*.rlib >/dev/null 2>&1; then
    rustc --edition 2021 -O --target "$target" -C linker="$gcc" -C link-arg="$archive" -C link-arg="$asks" -o "$out/example_rs" example.rs
    echo "example.rs:"
    run "$out/example_rs" >"$out/example_rs.said"
else
    need cc "a C compiler for this processor"
    cc -O2 -std=c11 -c -o "$out/model.o" ../independent-model/model.c
    cc -O2 -std=c11 -Dmodel_step=resheftal_step -Dmodel_cold_start=resheftal_cold_start -Dmodel_interface=resheftal_interface \
        -Dmodel_reads=resheftal_reads -Dmodel_standing=resheftal_standing -c -o "$out/stand_in.o" by_model.c
    rustc --edition 2021 -O -C link-arg="$out/stand_in.o" -C link-arg="$out/model.o" -o "$out/example_rs" example.rs
    echo "missing: the Rust library for $target (rustup target add $target); so over a stand-in, not the library:"
    echo "example.rs:"
    "$out/example_rs" >"$out/example_rs.said"
fi
cat "$out/example_rs.said"
cmp example.said "$out/example_rs.said"
