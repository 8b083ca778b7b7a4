#!/usr/bin/env bash
# Proves and compiles the hashes, links them into the program in this folder, and runs it: do they
# agree with the textbook, and how do their times compare? Both are compiled at -O3.
set -euo pipefail
cd "$(dirname "$0")/.."
mkdir -p target/staticlib
(cd crates/exports_c && rt lib) >target/staticlib.log 2>&1 || {
    cat target/staticlib.log >&2
    exit 1
}
# Named by its content, so that the program is linked anew when the hashes have changed.
rm -f target/staticlib/*.a
sum=$(sha256sum crates/exports_c/out/libexports_c.a | cut -c1-16)
cp crates/exports_c/out/libexports_c.a "target/staticlib/libexports-$sum.a"
cargo rustc --offline --quiet --release --manifest-path bench/Cargo.toml --target-dir target/bench -- \
    -C link-arg="$PWD/target/staticlib/libexports-$sum.a"
target/bench/release/bench
