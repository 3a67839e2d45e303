#!/usr/bin/env bash
# What calls over texts, results and nodes cost as their input doubles, in processor time of one run of `value_costs`:
# string functions on texts that are made to be dear for them, sorted rows, events in order, the bytes of elements whose
# attributes clash, and copies of documents. The status is 1 where one costs more than 2.2 times its half, or, for sorted
# rows, 3.2 times: past the caches each comparison waits for memory, though twice the rows take 2.1 times the instructions.
PACE=crates/value_costs/out/value_costs
. "$(dirname "$0")/common.sh"

# The lesser of two numbers, of which the first may be none yet.
least() { if [ -z "$1" ] || [ "$2" -lt "$1" ]; then echo "$2"; else echo "$1"; fi; }

runs=1
dear=0
while read -r kind size most; do
  ends 0 "$pace" "$kind" "$size"
  [ "$("$pace" "$kind" 0)" != "$("$pace" "$kind" "$size")" ] || [ "$kind" = contains ] || [ "$kind" = before ] || { echo "$0: $kind tells nothing" >&2; exit 1; }
  # What passes the bound is timed up to three times, since other work on the machine may double the time of a run, and
  # the least counts.
  half= whole= passed=1
  for round in 1 2 3; do
    half=$(least "$half" "$(cost "$pace" "$kind" "$size")")
    whole=$(least "$whole" "$(cost "$pace" "$kind" $((2 * size)))")
    if awk -v half="$half" -v whole="$whole" -v most="$most" 'BEGIN { exit whole > most * half }'; then passed=0 && break; fi
  done
  [ "$passed" -eq 0 ] || dear=1
  awk -v kind="$kind" -v size="$size" -v half="$half" -v whole="$whole" 'BEGIN {
    printf "%s: %d ms for %d, %.2f times that for twice as many\n", kind, half / 1000, size, whole / half
  }'
done <<'KINDS'
contains 20000000 2.2
before 20000000 2.2
after 20000000 2.2
length 20000000 2.2
normalize 5000000 2.2
substring 10000000 2.2
translate 4000000 2.2
order 100000 3.2
texts 1000000 2.2
attributes 100000 2.2
clashes 50000 2.2
children 50000 2.2
copies 50000 2.2
descendants 100000 2.2
chosen 100000 2.2
united 100000 2.2
stepped 100000 2.2
following 100000 2.2
siblings 100000 2.2
placed 100000 2.2
compared 100000 2.2
KINDS
exit "$dear"
