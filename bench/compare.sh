#!/bin/sh
# Builds the exported table and the Rust program that times it beside HashMap, and runs it. Run it from the repository's root.
set -e
kit=$(dirname "$(dirname "$(readlink -f "$(command -v rt)")")")
(cd crates/table_speed && rt lib)
mkdir -p target
rustc -C opt-level=3 -C target-cpu=native bench/compare.rs -o target/compare \
    -L crates/table_speed/out -l static=table_speed -L "$kit/c" -l static=libc_c
./target/compare
