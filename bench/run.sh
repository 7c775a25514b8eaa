#!/usr/bin/env bash
# Compares the proved core with an independent model: bench/run.sh check [RUNS [SEED]]. Times it: bench/run.sh speed.
set -euo pipefail
cd "$(dirname "$0")/.."
(cd crates/ffi && rt lib) > bench/build.log 2>&1 || { tail -20 bench/build.log; exit 1; }
cd bench
# the level that the kit builds the library for
export RUSTFLAGS="-C target-cpu=x86-64-v2"
cargo build --release --offline --quiet
exec target/release/bench "$@"
