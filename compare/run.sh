#!/usr/bin/env bash
# The gate's part: the proved libraries and bench program, compared with the
# reference. Words go to the program, as --long.
set -euo pipefail
cd "$(dirname "$0")/.."
for library in desk shapes; do
    (cd "crates/$library" && rt lib)
done
(cd crates/bench && rt run <stdin >/dev/null)
cd compare
cargo build --release --offline --quiet
../target/compare/release/compare --self-test
exec ../target/compare/release/compare "$@"
