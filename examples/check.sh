#!/usr/bin/env bash
# The examples in C and in Rust: each is built with the library for C and run, and has to print what examples/stdout has. gcc and rustc have
# to be there.
set -euo pipefail
cd "$(dirname "$0")/.."
for tool in gcc rustc; do
    if ! command -v "$tool" > /dev/null; then
        echo "examples: $tool is not on the path: the examples can't be built" >&2
        exit 1
    fi
done
for example in c rust; do
    if ! CC=gcc RUSTC=rustc "examples/run-$example.sh" | diff examples/stdout - >&2; then
        echo "examples: the example in $example failed, or printed something else (above: < wanted, > printed)" >&2
        exit 1
    fi
    echo "examples: the example in $example printed what it has to"
done
