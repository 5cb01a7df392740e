#!/usr/bin/env bash
# Instructions of one call on each named pool, counted by callgrind: the desk's
# entry, which brings its own memory, the library's two on lent memory of the same
# size, and the reference; then, for the pools of plain books, the walk beside the
# engine on lent memory and the reference's walk. Names of pools may be given;
# `compare --names` and `compare --names walk` list them.
set -euo pipefail
cd "$(dirname "$0")"
program=../target/compare/release/compare
[ -x "$program" ] || { echo "build it first: cargo build --release --offline" >&2; exit 2; }

# Instructions within the function that makes the call.
count() {
    local log
    log=$(valgrind --tool=callgrind --callgrind-out-file=/dev/null \
        --toggle-collect="*measured_$2*" "$program" --once "$1" "$2" 2>&1) \
        || { echo "$log" >&2; exit 1; }
    awk '/Collected/ { print $NF }' <<<"$log"
}

# Of the names that come in, those that were asked for, or all.
asked() {
    if [ $# -gt 0 ]; then grep -Fx "$(printf '%s\n' "$@")" || true; else cat; fi
}

mapfile -t pools < <("$program" --names | asked "$@")
mapfile -t plain < <("$program" --names walk | asked "$@")
[ $((${#pools[@]} + ${#plain[@]})) -gt 0 ] || { echo "no pool of such a name" >&2; exit 2; }
if [ ${#pools[@]} -gt 0 ]; then
    echo "| pool | proved | proved, lent memory | proved, some part | reference | reference / proved |"
    echo "|-|-|-|-|-|-|"
fi
for pool in "${pools[@]}"; do
    proved=$(count "$pool" proved)
    lent=$(count "$pool" lent)
    part=$(count "$pool" part)
    reference=$(count "$pool" reference)
    awk -v p="$pool" -v a="$proved" -v l="$lent" -v s="$part" -v b="$reference" \
        'BEGIN { printf "| %s | %d | %d | %d | %d | %.1f |\n", p, a, l, s, b, b / a }'
done
[ ${#pools[@]} -eq 0 ] || [ ${#plain[@]} -eq 0 ] || echo
if [ ${#plain[@]} -gt 0 ]; then
    echo "| pool | walk | engine, lent memory | reference's walk | engine / walk | reference / walk |"
    echo "|-|-|-|-|-|-|"
fi
for pool in "${plain[@]}"; do
    walk=$(count "$pool" walk)
    lent=$(count "$pool" lent)
    reference=$(count "$pool" reference_walk)
    awk -v p="$pool" -v a="$walk" -v l="$lent" -v b="$reference" \
        'BEGIN { printf "| %s | %d | %d | %d | %.1f | %.1f |\n", p, a, l, b, l / a, b / a }'
done
