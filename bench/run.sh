#!/usr/bin/env bash
# Builds the archive of the C interface and that of drafts, which is for this benchmark alone, then the benchmark with gcc and, where it is there,
# with clang, and runs each on one processor.
# The words are the compilers to use, gcc and clang if none is given.
set -euo pipefail
cd "$(dirname "$0")"
here=$PWD
for crate in capi bench_drafts; do
    (cd "../crates/$crate" && rt lib >/dev/null)
done
made=$(mktemp -d)
trap 'rm -rf "$made"' EXIT
pin=
if command -v taskset >/dev/null; then
    # The last processor that this shell may use.
    pin="taskset -c $(taskset -cp $$ | grep -oE '[0-9]+' | tail -1)"
fi
if [ $# -eq 0 ]; then
    set -- gcc clang
fi
for compiler in "$@"; do
    if ! command -v "$compiler" >/dev/null; then
        echo "$compiler is not there" >&2
        continue
    fi
    # The same processor that the archive is built for.
    "$compiler" -std=c11 -O3 -march=x86-64-v2 -Wall -Wextra -I../include ./*.c ../crates/capi/out/libcapi.a \
        ../crates/bench_drafts/out/libbench_drafts.a -o "$made/bench"
    printf '\n%s\n\n' "$("$compiler" --version | head -1)"
    (cd "$here/.." && $pin "$made/bench" samples/*.msg)
done
