#!/usr/bin/env bash
# What a prefixed name costs as more bindings are in scope: nested elements with 255 declarations each, and in the
# innermost 40,000 elements whose prefix the outermost declares. The cost of the nesting itself is measured apart
# and taken off. In processor time.
. "$(dirname "$0")/common.sh"
names=40000

# DEPTH NAMES: so many nested elements, and so many names in the innermost.
nested() {
  awk -v depth="$1" -v names="$2" 'BEGIN {
    for (d = 0; d < depth; d++) {
      print "(e"
      for (i = 0; i < 255; i++) print "Axmlns:p" d "_" i " urn:" d ":" i
    }
    for (i = 0; i < names; i++) { print "(p0_7:x"; print ")p0_7:x" }
    for (d = 0; d < depth; d++) print ")e"
  }'
}

runs=5
run_pace() { "$pace" --turns=b1000000 "builtin=$folder/out.txt" < "$1"; }

first=
for depth in 1 10 100 999; do
  nested "$depth" 0 > "$folder/bare"
  nested "$depth" "$names" > "$folder/full"
  # The built-in rules end with a fault at the 500th element within another.
  fault=$((depth >= 500))
  ends "$fault" run_pace "$folder/bare"
  ends "$fault" run_pace "$folder/full"
  bare=$(cost run_pace "$folder/bare")
  full=$(cost run_pace "$folder/full")
  net=$((full - bare))
  [ -n "$first" ] || first=$net
  awk -v depth="$depth" -v names="$names" -v net="$net" -v bare="$bare" -v first="$first" 'BEGIN {
    printf "%d bindings in scope: %.0f ns a name, %.2f of that with 255 in scope; the nesting itself %d us, %.0f ns a declaration\n", depth * 255, net * 1000 / names, net / first, bare, bare * 1000 / (depth * 255)
  }'
done
