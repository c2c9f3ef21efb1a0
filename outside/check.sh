#!/bin/sh
# All outside checks in turn; stops at the first that fails.
set -e
cd "$(dirname "$0")"
cargo build --release -j1 -q
cargo test --release -j1 -q
target/release/compare
target/release/compare --program target/release/reference-settle
target/release/compare --replay target/release/reference-replay
target/release/compare --fallback target/release/reference-fallback
target/release/hostile
target/release/bench
echo "PASSED: all outside checks"
