#!/bin/sh
# build.sh SOURCE OUT: builds at51's libfind, unchanged, as a program that answers batches of cases.
# SOURCE is the folder src of at51's repository: it holds libfind/mod.rs and libfind/omf51.rs.
# Two programs are left, the same code with two settings:
#   OUT/target/release/libfind-oracle   as at51 is released: a record length of 0 wraps to 65,535
#   OUT/target/checked/libfind-oracle   the same, but a sum or difference that wraps panics
# driver/main.rs says what they read and write.
# Debian's packages: cargo librust-nom-dev librust-num-traits-dev librust-serde-dev
# librust-serde-derive-dev librust-serde-json-dev (nom 7.1.1 there).
set -eu
[ $# -eq 2 ] || { echo "usage: build.sh SOURCE OUT" >&2; exit 2; }
here=$(cd "$(dirname "$0")" && pwd)
source=$(cd "$1" && pwd)
mkdir -p "$2/src/libfind/aslink3" "$2/.cargo"
out=$(cd "$2" && pwd)
cp "$here/driver/Cargo.toml" "$out/Cargo.toml"
cp "$here/driver/cargo-config.toml" "$out/.cargo/config.toml"
cp "$here/driver/main.rs" "$out/src/main.rs"
cp "$here/driver/aslink3.rs" "$out/src/libfind/aslink3.rs"
cp "$here/driver/shown.rs" "$out/src/libfind/aslink3/shown.rs"
cp "$source/libfind/mod.rs" "$source/libfind/omf51.rs" "$out/src/libfind/"
cd "$out"
cargo build --offline --release
cargo build --offline --profile checked
