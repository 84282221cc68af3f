#!/usr/bin/env bash
# Builds the library for C, and builds and runs the example in Rust with it. The first time it proves the library, which takes minutes.
set -euo pipefail
cd "$(dirname "$0")/.."
compiler=${RUSTC:-rustc}
if ! command -v "$compiler" > /dev/null; then
    echo "run-rust: there is no Rust compiler '$compiler' on the path; name one by RUSTC" >&2
    exit 1
fi
(cd crates/capi && rt lib) > /dev/null
mkdir -p examples/out
"$compiler" --edition 2021 -O -D warnings examples/rust/example.rs -L native=crates/capi/out -l static=capi -o examples/out/example-rust
examples/out/example-rust samples/group-key.msg crates/verdict/data/group.msg
