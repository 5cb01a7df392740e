#!/usr/bin/env bash
# The C and the Rust caller under a memory checker, and the stack that the
# entries use. Build the Rust one first: cargo build --release --offline
set -euo pipefail
cd "$(dirname "$0")"
desk=${PROVED_LIB:-../crates/desk/out} shapes=${PROVED_LIB:-../crates/shapes/out}
checked="valgrind -q --error-exitcode=1 --leak-check=full"

cc -std=c11 -Wall -Wextra -Werror -O1 -g -I../include caller.c -L"$desk" -L"$shapes" -ldesk -lshapes -lpthread -o ../target/compare/caller
../target/compare/caller --stack hostile/*.bin
# The quick ones: under the checker all is some fifty times slower.
$checked ../target/compare/caller hostile/{unequal-only,equality-chains,always-true-16,mutual-rotation,plain-tree-of-three,plain-tree-by-constants,plain-test-pairs,not-plain-at-the-end,plain-test-never-met}.bin
$checked ../target/compare/release/compare --no-program --exact --thin 300
echo "no memory errors"
