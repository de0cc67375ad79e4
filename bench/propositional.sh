#!/usr/bin/env bash
# Prints seconds of `prop_dimacs`, and of minisat where it is installed, on the same formulas.
# First build the program: `rt run </dev/null` in crates/prop_dimacs.
set -u
cd "$(dirname "$0")/.." || exit 1
ours=crates/prop_dimacs/out/prop_dimacs
[ -x "$ours" ] || { echo "build crates/prop_dimacs first" >&2; exit 1; }
work=$(mktemp -d)
trap 'rm -rf "$work"' EXIT

# Seconds that a command takes; its output goes away.
seconds() {
    local TIMEFORMAT=%U
    { time "$@" >"$work/out" 2>/dev/null; } 2>&1
}

# One line for a formula: its name, our answer, our seconds and minisat's.
compare() {
    local name=$1
    shift
    python3 bench/propositional.py "$@" >"$work/formula"
    local mine answer theirs=-
    mine=$(seconds "$ours" <"$work/formula")
    answer=$(sort "$work/out" | uniq -c | tr -s ' \n' ' ')
    if command -v minisat >/dev/null; then
        theirs=$(seconds minisat -verb=0 "$work/formula")
    fi
    printf '%-28s ours %7s s  minisat %7s s %s\n' "$name" "$mine" "$theirs" "$answer"
}

compare "7 pigeons in 6 holes" pigeons 7 6
compare "8 pigeons in 7 holes" pigeons 8 7
for seed in 1 2 3 4; do
    compare "random 150/640, seed $seed" random 150 640 "$seed"
done
compare "100,000 implications" chain 100000
# Here nearly all time goes into reading, building and the first propagation, which are linear.
for size in 50000 100000 200000; do
    compare "random $size/$((size * 2))" random "$size" $((size * 2)) 1
done
# The same of `Checked` alone: what is kept is made, and a clause of the formula is taken. Reading is in it.
check() {
    local name=$1
    shift
    python3 bench/propositional.py "$@" >"$work/formula"
    printf '%-28s ours %7s s %s\n' "$name" "$(seconds "$ours" <"$work/formula")" "$(cat "$work/out")"
}
for size in 25000 50000 100000 200000; do
    check "first of $size clauses" first "$size" "$size" 1
done
# Clauses that follow near where they stand: no pass over all clauses, but one over the values, for each.
for count in 2500 5000 10000 20000; do
    check "$count among 10000" implied 10000 "$count"
done
for size in 5000 20000 40000; do
    check "10000 among $size" implied "$size" 10000
done
# minisat reads one formula a run, so the figure is ours alone.
python3 bench/propositional.py many 10000 50 200 1 >"$work/formula"
printf '%-28s ours %7s s\n' "10,000 of 50/200" "$(seconds "$ours" <"$work/formula")"
