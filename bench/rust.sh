#!/bin/sh
# rust.sh SOURCE OUT: builds the reading of at51's libfind, unchanged, as an x86-64 program to be counted, and the collecting, the search, the list and the whole run as four others.
# SOURCE is the folder src of at51's repository: it holds libfind/mod.rs and libfind/omf51.rs.
# Left: OUT/rust-reading, OUT/rust-collecting, OUT/rust-searching, OUT/rust-listing and OUT/rust-whole, static; rust/main.rs, collecting.rs, searching.rs, listing.rs and whole.rs say what they do.
# README.md names the Debian packages.
# On another machine than x86-64 the standard library for x86-64 is unpacked under OUT beside the machine's own;
# nothing is installed.
set -eu
[ $# -eq 2 ] || { echo "usage: rust.sh SOURCE OUT" >&2; exit 2; }
here=$(cd "$(dirname "$0")" && pwd)
source=$(cd "$1" && pwd)
mkdir -p "$2/src/libfind" "$2/.cargo"
out=$(cd "$2" && pwd)
target=x86_64-unknown-linux-gnu

cp "$here/rust/Cargo.toml" "$out/Cargo.toml"
cp "$here/../tools/oracle/driver/cargo-config.toml" "$out/.cargo/config.toml"
cp "$here"/rust/*.rs "$out/src/"
cp "$here/../tools/oracle/driver/aslink3.rs" "$out/src/libfind/aslink3.rs"
cp "$source/libfind/mod.rs" "$source/libfind/omf51.rs" "$out/src/libfind/"
cd "$out"

# Debian's own compiler and cargo: a newer cargo asks this compiler for what it does not know.
RUSTC=/usr/bin/rustc
if [ "$(uname -m)" != x86_64 ]; then
    if [ ! -d std/usr ]; then
        mkdir -p std
        (cd std && apt-get download libstd-rust-dev:amd64 && dpkg -x libstd-rust-dev_*_amd64.deb .)
    fi
    mkdir -p sysroot/lib/rustlib
    for each in /usr/lib/rustlib/*-linux-gnu "$out/std/usr/lib/rustlib/$target"; do
        ln -sfn "$each" "sysroot/lib/rustlib/$(basename "$each")"
    done
    printf '#!/bin/sh\nexec /usr/bin/rustc --sysroot "%s" "$@"\n' "$out/sysroot" >rustc
    chmod +x rustc
    RUSTC=$out/rustc
    export CARGO_TARGET_X86_64_UNKNOWN_LINUX_GNU_LINKER=x86_64-linux-gnu-gcc
    # the cross package's libm.a names a folder that only an x86-64 machine has
    mkdir -p lib
    ln -sf /usr/x86_64-linux-gnu/lib/libm-2.*.a lib/libm.a
fi
export RUSTC RUSTFLAGS="-C target-feature=+crt-static -L native=$out/lib"
/usr/bin/cargo build --offline --release --target "$target"
for each in rust-reading rust-collecting rust-searching rust-listing rust-whole; do
    cp "target/$target/release/$each" "$out/"
done
