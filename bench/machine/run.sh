#!/usr/bin/env bash
# Times the same valuation, each as a whole process: the proved machine (`ial run`), the same machine by hand in safe Rust,
# and the rule as a Lua program. Prints the best of fifteen runs each.
set -euo pipefail
cd "$(dirname "${BASH_SOURCE[0]}")/../.."
[ -x crates/ial/out/ial ] || (cd crates/ial && rt run -- help >/dev/null)
mkdir -p target/bench
python3 bench/machine/assemble.py target/bench
rustc --edition 2021 -C opt-level=3 bench/machine/interpreter.rs -o target/bench/interpreter 2>/dev/null
python3 - <<'PY'
import subprocess, time, shutil
def best(command):
    least = 9.0
    for _ in range(15):
        start = time.perf_counter()
        subprocess.run(command, stdout=subprocess.DEVNULL, stderr=subprocess.DEVNULL, check=True)
        least = min(least, time.perf_counter() - start)
    return least * 1e3
print("members   ial run   safe Rust   Lua 5.4   (milliseconds, whole process, best of 15)")
for count in (900, 9000, 90000):
    roll = f"target/bench/members-{count}.roll"
    ours = best(["crates/ial/out/ial", "run", "target/bench/members.code", roll])
    rust = best(["target/bench/interpreter", "target/bench/members.code", roll])
    lua = best(["lua5.4", "bench/machine/rule.lua", roll]) if shutil.which("lua5.4") else float("nan")
    print(f"{count:7} {ours:9.2f} {rust:11.2f} {lua:9.2f}")
PY
