#!/bin/sh
# Builds the static library and the loop in C at -O3, and prints the table of both side by side. CC: the C compiler.
set -eu
cd "$(dirname "$0")/../.."
tools/build terntrolley >&2
build=target/bench
mkdir -p "$build"
"${CC:-cc}" -O3 -std=c11 -D_POSIX_C_SOURCE=199309L -Wall -Wextra -o "$build/feed" \
    bench/feed/main.c bench/feed/loop.c crates/terntrolley/out/libterntrolley.a
"$build/feed"
