#!/usr/bin/env bash
# What a line costs as a source grows, in processor time, so that it can be read on a busy machine too: the whole
# program `dtmx_pace` on sources of short lines and of lines of a megabyte, beside `wc -l`. All lines are fed before
# the one turn at the end.
. "$(dirname "$0")/common.sh"

# So many character data lines of a million bytes each.
long_lines() {
  printf '(list\n'
  for ((i = 0; i < $1; i++)); do printf -- '-'; head -c 999999 /dev/zero | tr '\0' 'x'; printf '\n'; done
  printf ')list\n'
}

runs=10

run_pace() { "$pace" --turns=b1000000 "builtin=$folder/out.txt" < "$1"; }
run_wc() { wc -l < "$1"; }

# A row on one source: LABEL SOURCE; the cost of the row before, of half the source, stands in `last`.
last=
row() {
  local lines bytes took counted
  lines=$(wc -l < "$2")
  bytes=$(wc -c < "$2")
  ends 0 run_pace "$2"
  took=$(cost run_pace "$2")
  counted=$(cost run_wc "$2")
  awk -v label="$1" -v lines="$lines" -v bytes="$bytes" -v took="$took" -v start="$start" -v counted="$counted" -v last="$last" -v kept="$folder/net" 'BEGIN {
    net = took - start
    if (net < 1) net = 1
    printf "%s: %d lines, %d bytes: %d us, %.0f ns a line, %.2f ns a byte, %.0f MB a second; wc -l %d us", label, lines, bytes, took, net * 1000 / lines, net * 1000 / bytes, bytes / net, counted
    if (last != "") printf "; a byte costs %.2f of what it cost in half the source", net / last / 2
    print ""
    print net > kept
  }'
  last=$(cat "$folder/net")
}

printf '(a\n)a\n' > "$folder/short"
start=$(cost run_pace "$folder/short")
echo "dtmx_pace on two lines: $start us of processor time"
for lines in 60000 120000 240000 480000; do
  items "$lines" > "$folder/source"
  row "short lines" "$folder/source"
done
last=
for lines in 4 8 16; do
  long_lines "$lines" > "$folder/source"
  row "lines of 1 MB" "$folder/source"
done
