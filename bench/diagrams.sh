#!/usr/bin/env bash
# Prints milliseconds of one call of `find_embedding`, `meets` and `covers`, on worlds of 6 to 10
# elements with a relation of two elements and one of three, also where there is no embedding.
# First build the program: `rt run </dev/null` in crates/bench_diagrams.
# The longest of each call on a loaded machine, in milliseconds: a ring of 9 elements in one of 10 takes
# `find_embedding` 0.17, `meets` 0.45 and `covers` 10; a ring of 7 in one of 8 takes 0.06, 0.15 and 1.9.
# Where there is an embedding of 10 elements they take 0.03, 0.07 and 1.9.
set -u
cd "$(dirname "$0")/.." || exit 1
program=crates/bench_diagrams/out/bench_diagrams
[ -x "$program" ] || { echo "build crates/bench_diagrams first" >&2; exit 1; }
times=200
answer=$(mktemp)
trap 'rm -f "$answer"' EXIT

# Milliseconds of the program, where each line makes the call this often.
milliseconds() {
    local TIMEFORMAT=%U
    { time echo "$1 $2 $3" | "$program" >"$answer"; } 2>&1 | awk '{ print 1000 * $1 }'
}

for call in embeds meets covers; do
    for size in 6 8 10; do
        less=$((size - 1))
        for worlds in \
            "order $size order $size" "ring $size ring $size" "random $size random $size" \
            "empty $size empty $size" "order $size ring $size" "ring $less ring $size" \
            "random $size other $size" "empty $size random $size" "empty $size empty $less" \
            "order $size order $less"; do
            none=$(milliseconds "$call" 0 "$worlds")
            all=$(milliseconds "$call" "$times" "$worlds")
            each=$(echo "$none $all" | awk -v n="$times" '{ each = ($2 - $1) / n; printf "%.3f", each < 0 ? 0 : each }')
            printf '%-32s %9s ms  %s\n' "$call $worlds" "$each" "$(sed 's/.*: //' "$answer")"
        done
    done
done
