#!/bin/sh
# Times the listing at the ceiling of effort: the proved program beside a plain Rust program with the same algorithm.
# Both must print the same. Each is run 20 times; the least user time of each is shown, and their ratio.
# Needs rustc, and the proved program: `rt run` in crates/ceiling builds it.
set -eu
cd "$(dirname "$0")/.."
program=crates/ceiling/out/ceiling
[ -x "$program" ] || (cd crates/ceiling && rt run >/dev/null)
made=$(mktemp -d)
trap 'rm -rf "$made"' EXIT
rustc --edition 2021 -C opt-level=3 -C target-cpu=x86-64-v2 -o "$made/plain" bench/ceiling.rs
"$program" >"$made/proved.out"
"$made/plain" >"$made/plain.out"
cmp "$made/proved.out" "$made/plain.out" || { echo "the two programs do not print the same" >&2; exit 1; }
head -n 1 "$made/proved.out"
python3 - "$program" "$made/plain" <<'PY'
import resource, subprocess, sys

def least(program):
    times = []
    for _ in range(20):
        before = resource.getrusage(resource.RUSAGE_CHILDREN).ru_utime
        subprocess.run([program], stdout=subprocess.DEVNULL, check=True)
        times.append(resource.getrusage(resource.RUSAGE_CHILDREN).ru_utime - before)
    return min(times)

proved, plain = least(sys.argv[1]), least(sys.argv[2])
print(f"proved: {proved:.3f} s   plain Rust: {plain:.3f} s   ratio: {proved / plain:.2f}")
PY
