#!/bin/sh
# Proves and builds the static library, compiles the C example against it with gcc, and runs it.
set -eu
cd "$(dirname "$0")/.."
(cd crates/webfront && rt lib >/dev/null)
example=$(mktemp)
trap 'rm -f "$example"' EXIT
gcc -std=c11 -Wall -Wextra -Werror -O2 -Iinclude tools/c/example.c crates/webfront/out/libwebfront.a -o "$example"
"$example"
