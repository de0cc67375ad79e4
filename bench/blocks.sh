#!/usr/bin/env bash
# Counts the queries that `block` asks beside those that it would ask if its pass over the literals kept no
# worlds, on the states that PDR blocks up to a frame of examples/lock-server.pyv (or of another model and
# frame: `bench/blocks.sh MODEL FRAME`). Only the safeties of the model count.
# First build the program: `rt run` in crates/bench_blocks.
set -u
model=$(realpath "${1:-$(dirname "$0")/../examples/lock-server.pyv}")
frame=${2:-4}
cd "$(dirname "$0")/.." || exit 1
program=crates/bench_blocks/out/bench_blocks
[ -x "$program" ] || { echo "build crates/bench_blocks first" >&2; exit 1; }
"$program" "$model" "$frame"
