#!/usr/bin/env bash
# Times how a report of about 1 MiB is read and written again: one of many clauses, and one of one clause
# with many variables and denials.
# First build the program: `rt run` in crates/bench_reports.
set -u
cd "$(dirname "$0")/.." || exit 1
program=crates/bench_reports/out/bench_reports
[ -x "$program" ] || { echo "build crates/bench_reports first" >&2; exit 1; }

# a report of safety with these clauses
report() {
  printf 'report 1\nverdict safe 1\n'
  cat
  printf 'numbers 0 1 0\ndone\n'
}

# this many clauses of two variables
many() {
  yes 'clause 2 forall V0:node, V1:node. V0 = V1 | !held(V0) | !held(V1)' | head -n "$1"
}

# one clause of this many variables, with a denial for each
wide() {
  printf 'clause 2 forall '
  seq 0 "$(($1 - 1))" | awk '{ printf "%sV%d:node", (NR > 1 ? ", " : ""), $1 }'
  printf '. '
  seq 0 "$(($1 - 1))" | awk '{ printf "%s!held(V%d)", (NR > 1 ? " | " : ""), $1 }'
  printf '\n'
}

for kind in many wide; do
  if [ "$kind" = many ]; then text=$(many 15500 | report); else text=$(wide 33000 | report); fi
  start=$(date +%s%N)
  answer=$(printf '%s\n' "$text" | "$program")
  echo "$kind: $answer, $((($(date +%s%N) - start) / 1000000)) ms"
done
