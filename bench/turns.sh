#!/usr/bin/env bash
# What turns cost as a source grows: `--turns=b1,r0`, a turn after each line, beside one turn when all lines are there.
# A turn goes on where the last one stopped, so it costs what is new; were it to walk all that is there, all turns
# would cost the lines times half of them. In processor time; the status is 1 where the two texts differ.
. "$(dirname "$0")/common.sh"

runs=3

each() { "$pace" --turns=b1,r0 "builtin=$folder/each.txt" < "$folder/source" > "$folder/said"; }
last() { "$pace" --turns=b1000000 "builtin=$folder/last.txt" < "$folder/source" > "$folder/said_last"; }

half=
for lines in 20000 40000 80000 160000; do
  items "$lines" > "$folder/source"
  ends 0 each
  ends 0 last
  at_each=$(cost each)
  at_last=$(cost last)
  cmp "$folder/each.txt" "$folder/last.txt"
  [ "$(tail -n 1 "$folder/said")" = "$(tail -n 1 "$folder/said_last")" ]
  awk -v lines="$lines" -v turns="$(wc -l < "$folder/said")" -v each="$at_each" -v last="$at_last" -v half="$half" -v kept="$folder/net" 'BEGIN {
    net = each - last
    if (net < 1) net = 1
    printf "%d lines: one turn %d us; %d turns %d us, that is %.1f us for each turn more, %.2f ns for each line that was there at it", lines, last, turns, each, net / (turns - 1), net * 1000 / (turns - 1) / (lines / 2)
    if (half != "") printf "; %.2f times what they cost in half the source", net / half
    print ""
    print net > kept
  }'
  half=$(cat "$folder/net")
done
