#!/usr/bin/env bash
# What the walk's test of plain books costs beside reading the book, counted by
# callgrind: for each book of the examples, and for the books of the hostile inputs
# that are made to cost time, one walk about no record. `test` is all that the entry
# does by itself, the test and some 80 instructions beside it, but for clearing its
# blocks, reading and unfolding.
set -euo pipefail
cd "$(dirname "$0")"
library=${PROVED_LIB:-../crates/shapes/out}
work=$(mktemp -d)
trap 'rm -rf "$work"' EXIT
cc -std=c11 -Wall -Wextra -Werror -O1 -I../include walker.c -L"$library" -lshapes -o "$work/walker"

# The row of a book, by its name and its bytes.
row() {
    local reply
    reply=$(valgrind -q --tool=callgrind --callgrind-out-file="$work/counts" --toggle-collect=shapes_walk "$work/walker" "$2")
    { callgrind_annotate --threshold=100 "$work/counts"; callgrind_annotate --threshold=100 --inclusive=yes "$work/counts" | sed 's/^/all /'; } \
        | tr -d ',' | awk -v name="$1" -v reply="$reply" '
            $1 != "all" && /:shapes_walk|:plain::/ { test += $1 }
            $1 == "all" && /:formats::read/ { reading = $2 }
            END {
                printf "| %s | %s | %d | %d | %.2f |\n", name, reply, reading, test, test / reading
            }'
}

echo "| book | reply | reading | test | test / reading |"
echo "|-|-|-|-|-|"
for book in ../examples/plain/*.book ../examples/*.book ../examples/near-misses/*.book; do
    ../shapes encode book "$book" -o "$work/book"
    name=${book#../examples/}
    row "${name%.book}" "$work/book"
done
for input in plain-tree-by-constants plain-tree-of-three plain-test-pairs plain-test-never-met not-plain-at-the-end; do
    length=$(od -An -tu2 -N2 "hostile/$input.bin")
    tail -c +3 "hostile/$input.bin" | head -c "$length" >"$work/book"
    row "$input" "$work/book"
done
