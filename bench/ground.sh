#!/usr/bin/env bash
# Prints seconds and kilobytes of grounding, for forms of growing weight.
# First build the program: `rt run </dev/null` in crates/fo_weigh.
set -u
cd "$(dirname "$0")/.." || exit 1
program=crates/fo_weigh/out/fo_weigh
[ -x "$program" ] || { echo "build crates/fo_weigh first" >&2; exit 1; }
for form in "50 0" "100 0" "125 0" "157 0" "60 10" "60 100" "60 340" "10 10000"; do
    echo "$form" | /usr/bin/time -f "  %U s, %M KB" "$program" 2>&1
done
