#!/usr/bin/env bash
# Runs the cases that take longer than about a second, and prints how long they took.
# First build the program: `rt run -- words.cases` in crates/updr_rows.
set -u
cd "$(dirname "$0")/../crates/updr_rows/data" || exit 1
[ -x ../out/updr_rows ] || { echo "build crates/updr_rows first" >&2; exit 1; }
time ../out/updr_rows long.cases
