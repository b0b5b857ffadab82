#!/usr/bin/env bash
# Builds the proved roll as a static library and times it against plain Rust.
set -euo pipefail
cd "$(dirname "${BASH_SOURCE[0]}")/../.."
(cd crates/bench && rt lib >/dev/null)
mkdir -p target/bench
rustc --edition 2021 -C opt-level=3 bench/roll/main.rs -o target/bench/roll \
    -L crates/bench/out -l static=bench
target/bench/roll
