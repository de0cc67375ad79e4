#!/usr/bin/env bash
# Prints seconds and kilobytes for 20,000 events of the machine, and for more: looks that one worker takes,
# is given the brief of, and puts back. There are no clauses and no obligations.
# First build the program: `rt run <stdin` in crates/bench_events.
set -u
cd "$(dirname "$0")/.." || exit 1
program=crates/bench_events/out/bench_events
[ -x "$program" ] || { echo "build crates/bench_events first" >&2; exit 1; }
for events in 20000 200000 1000000; do
    echo "$events" | /usr/bin/time -f "  %e s, %M KB" "$program" 2>&1
done
