#!/bin/sh
# Proves and builds the static libraries, and runs the benchmark: the proved code against plain Rust, in one run, and
# OpenSSL's figures for SHA-1 where its command is at hand.
set -eu
cd "$(dirname "$0")/.."
for name in webfront bench_entries; do
    (cd "crates/$name" && rt lib >/dev/null)
done
cargo run --quiet --release --offline --manifest-path tools/bench/Cargo.toml
if command -v openssl >/dev/null; then
    for bytes in 64 1024 1048576; do
        openssl speed -seconds 1 -bytes "$bytes" -evp sha1 2>/dev/null | sed -n 's/^sha1 *\(.*\)k$/\1/ip' | awk -v bytes="$bytes" '{ printf "SHA-1 of %d bytes by OpenSSL: %.0f MB/s\n", bytes, $1 / 1000 }'
    done
fi
