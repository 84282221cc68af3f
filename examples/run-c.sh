#!/usr/bin/env bash
# Builds the library for C, and builds and runs the example in C with it. The first time it proves the library, which takes minutes.
set -euo pipefail
cd "$(dirname "$0")/.."
compiler=${CC:-gcc}
if ! command -v "$compiler" > /dev/null; then
    echo "run-c: there is no C compiler '$compiler' on the path; name one by CC" >&2
    exit 1
fi
(cd crates/capi && rt lib) > /dev/null
mkdir -p examples/out
"$compiler" -std=c11 -Wall -Wextra -Werror -O2 -Iinclude examples/c/example.c crates/capi/out/libcapi.a -o examples/out/example-c
examples/out/example-c samples/group-key.msg crates/verdict/data/group.msg
