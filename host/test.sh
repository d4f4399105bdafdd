#!/bin/sh
# Builds the static library and runs the host's tests over it.
set -eu
cd "$(dirname "$0")/.."
tools/build terntrolley
cd host
cargo test --offline --release
