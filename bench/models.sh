#!/usr/bin/env bash
# Prints seconds, kilobytes and the first line of the output, for `verify` and `bmc` on the models of examples/.
# First build the program: `rt run` in crates/updr.
set -u
cd "$(dirname "$0")/.." || exit 1
program=$PWD/crates/updr/out/updr
[ -x "$program" ] || { echo "build crates/updr first" >&2; exit 1; }
figures=$(mktemp)
output=$(mktemp)
trap 'rm -f "$figures" "$output"' EXIT
run() {
    /usr/bin/time -f "%e s, %M KB" -o "$figures" "$program" "$@" > "$output" 2>&1
    echo "updr $*: status $?, $(tail -n 1 "$figures"), $(head -n 2 "$output" | tr '\n' ' ')"
}
run verify examples/lock-server.pyv
run verify examples/grab.pyv
run verify examples/leaders.pyv
for depth in 0 3 5 10; do
    run bmc examples/lock-server.pyv --depth "$depth"
done
run bmc examples/grab.pyv
run bmc examples/lock-server-forgets.pyv
run bmc examples/leaders.pyv
