#!/usr/bin/env bash
# Builds the proved check as a static library and times it by the length of the code.
set -euo pipefail
cd "$(dirname "${BASH_SOURCE[0]}")/../.."
(cd crates/bench && rt lib >/dev/null)
mkdir -p target/bench
rustc --edition 2021 -C opt-level=3 bench/check/main.rs -o target/bench/check -L crates/bench/out -l static=bench
target/bench/check
