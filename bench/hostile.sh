#!/usr/bin/env bash
# What sources cost that a stranger makes to be dear, each within the limits and without a flaw: what a byte costs
# beside a byte of an ordinary line, and what the source costs beside one of half its size. In processor time, both as
# ratios in one run, so that it can be read on a busy machine too. The status is 1, with a line for each source that
# passes a bound, where a byte costs more than ten times an ordinary one or a source more than 2.2 times its half.
# Beside it stands the greatest resident size, which has the table in it.
. "$(dirname "$0")/common.sh"
most_a_byte=10
most_doubled=2.2

# Each source is made by a function of its name with two words: SIZE, which is 1 for the half and 2 for the whole, and
# PART, `whole` or `scope`. Where declarations are most of its bytes, `scope` makes these alone: their bytes and their
# cost are taken off, since it's what follows that must not pay for what is in scope.
make_source() {
  awk -v size="$2" -v part="$3" '
    function wide(bytes,  text) {
      text = "u"
      while (length(text) * 2 <= bytes) text = text text
      return text substr(text, 1, bytes - length(text))
    }
    # All names that the limit lets in beside two elements, with so many bytes before the six at their ends.
    function names(front_bytes,  front, i) {
      front = wide(front_bytes)
      print "(list"
      for (i = 0; i < 32767 * size; i++) {
        if (i % 255 == 0) print i ? ")e\n(e" : "(e"
        print "A" front (100000 + i) " v"
      }
      print ")e\n)list"
    }
    # So many elements, each with an attribute of one local name under each of so many prefixes.
    function one_local_name(elements, prefixes,  i, n) {
      print "(list"
      for (i = 100; i < 100 + prefixes; i++) print "Axmlns:p" i " urn:" i
      for (n = 0; n < elements; n++) {
        print "(e"
        for (i = 100; i < 100 + prefixes; i++) print "Ap" i ":x v"
        print ")e"
      }
      print ")list"
    }
    # So many elements, each with 256 attribute lines, of which so many are declarations.
    function one_byte_lines(elements, declarations,  letters, lines, i, n) {
      letters = "abcdefghijklmnop"
      for (i = 0; i < 256; i++) {
        lines = lines (i < declarations ? "\nAxmlns:" : "\nA")
        lines = lines substr(letters, int(i / 16) + 1, 1) substr(letters, i % 16 + 1, 1) " v"
      }
      print "(list"
      for (n = 0; n < elements; n++) print "(e" lines "\n)e"
      print ")list"
    }
    BEGIN { '"$1"' }'
}

# One element with 254 new names under a URI of 131,000 bytes. Each name counts with its URI and is filled with it, so
# that this is near the limit of text; were each compared with each and the URI first, it would be read 32,000 times.
# What doubles is the URI alone: with the names too the table would have to hold four times the bytes.
names_under_one_long_uri() {
  make_source '
    print "(p:e"
    print "Axmlns:p " wide(65500 * size)
    for (i = 0; i < 254; i++) print "Ap:n" i " v"
    print ")p:e"' "$@"
}

# 255 prefixes with URIs of 130,000 bytes that differ at their ends, then elements with an attribute under each prefix.
# The values are empty because the names leave little of the limit of text.
attributes_under_long_uris() {
  make_source '
    print "(list"
    front = wide(65000 * size - 3)
    for (i = 0; i < 255; i++) print "Axmlns:p" i " " front (100 + i)
    for (n = 0; n < 1000 * size && part == "whole"; n++) {
      print "(e"
      for (i = 0; i < 255; i++) print "Ap" i ":x "
      print ")e"
    }
    print ")list"' "$@"
}

# Elements of ten bytes under a URI of a million.
elements_under_a_long_uri() {
  make_source '
    print "(list"
    print "Axmlns:p " wide(500000 * size)
    for (n = 0; n < 100000 * size && part == "whole"; n++) print "(p:a\n)p:a"
    print ")list"' "$@"
}

# 65,536 names that differ only at their ends, as attributes since a name takes the fewest bytes so. Short ones cost
# the most a byte; the long ones are near the limit of text too.
short_names() { make_source 'names(2)' "$@"; }
long_names() { make_source 'names(494)' "$@"; }

# Only their URIs tell the attributes of an element apart. Twice the elements, and then twice the attributes of each.
elements_with_one_local_name() { make_source 'one_local_name(500 * size, 256)' "$@"; }
prefixes_of_one_local_name() { make_source 'one_local_name(1000, 128 * size)' "$@"; }

# As many elements as may nest, with 250 declarations each. The built-in rules end with the fault TooDeep there.
nested_declarations() {
  make_source '
    for (d = 0; d < 500 * size; d++) {
      print "(e"
      for (i = 0; i < 250; i++) print "Axmlns:p" d "_" i " urn:" d ":" i
    }
    for (d = 0; d < 500 * size; d++) print ")e"' "$@"
}

# Attributes with a value of one byte, six bytes a line: as many as the limit of rows lets in. Then 33 MB of such lines,
# two of three of them declarations, which take no row.
attributes_of_one_byte() { make_source 'one_byte_lines(1945 * size, 0)' "$@"; }
attribute_lines_of_one_byte() { make_source 'one_byte_lines(6578 * size, 181)' "$@"; }

# A run is ended after `seconds` of processor time, so that a program that passes a bound by far is told soon. `measure`
# is nothing, or the program that leaves the greatest resident size in kilobytes in a file.
seconds=60
measure=()
ulimit -c 0
run_pace() {
  (
    ulimit -t "$seconds"
    exec ${measure[@]+"${measure[@]}"} "$pace" --turns=b1000000 "builtin=$folder/out.txt" < "$1"
  )
}

if /usr/bin/time -f %M true > "$folder/ignored" 2>&1; then
  measuring=(/usr/bin/time -f %M -o "$folder/resident")
elif command -v python3 > "$folder/ignored"; then
  measuring=(python3 -c 'import resource, subprocess, sys
status = subprocess.call(sys.argv[2:])
print(resource.getrusage(resource.RUSAGE_CHILDREN).ru_maxrss, file=open(sys.argv[1], "w"))
sys.exit(status if status >= 0 else 128 - status)' "$folder/resident")
else
  measuring=()
fi

# The microseconds of a run on a source, in `took`, its status in `status`, and its size in `resident`. The first run
# says how many make a group that can be timed.
time_source() {
  local first TIMEFORMAT='%3U %3S'
  : > "$folder/resident"
  measure=(${measuring[@]+"${measuring[@]}"})
  status=0
  first=$({ time run_pace "$1" > "$folder/said" 2>&1; } 2>&1) || status=$?
  measure=()
  resident=$(tail -n 1 "$folder/resident")
  took=$(awk '{ printf "%d", ($1 + $2) * 1000000 }' <<< "$first")
  [ "$status" -le 1 ] || return 0
  runs=$((200000 / (took + 1)))
  if [ "$runs" -gt 60 ]; then runs=60; fi
  if [ "$runs" -lt 1 ]; then runs=1; fi
  took=$(cost run_pace "$1")
}

# STATUS FILE: the least that a run on a source took so far, in `took` and beside the file. The status is 1 where the
# run was ended for its time, and the script fails where it ends with another status than that.
time_again() {
  time_source "$2"
  if [ "$status" -eq 152 ] || [ "$status" -eq 137 ]; then return 1; fi
  if [ "$status" -ne "$1" ]; then
    echo "hostile: $label: status $status, which isn't $1: $(tail -n 1 "$folder/said")"
    exit 1
  fi
  if [ -e "$2.least" ] && [ "$(cat "$2.least")" -lt "$took" ]; then took=$(cat "$2.least"); fi
  echo "$took" > "$2.least"
}

# NAME STATUS [scope]: tells of a source that ends with that status, and adds to `passed` what it passes; with `scope`
# its declarations are taken off. What passes a bound is timed up to three times, since other work on the machine may
# double the time of a run, and the least counts.
passed=()
row() {
  local label=${1//_/ } round size bytes scope_bytes=0 scope_took net half
  rm -f "$folder"/*.least
  for size in 1 2; do
    "$1" "$size" whole > "$folder/whole$size"
    if [ "${3-}" = scope ]; then "$1" "$size" scope > "$folder/scope$size"; fi
  done
  for round in 1 2 3; do
    for size in 1 2; do
      scope_took=$start
      if [ "${3-}" = scope ]; then
        seconds=60
        scope_bytes=$(wc -c < "$folder/scope$size")
        time_again "$2" "$folder/scope$size" || { echo "hostile: $label: its declarations take over a minute"; exit 1; }
        scope_took=$took
      fi
      bytes=$(wc -c < "$folder/whole$size")
      # Three times what the bound lets it cost, and two seconds.
      seconds=$(awk -v bytes=$((bytes - scope_bytes)) -v scope="$scope_took" -v ordinary="$ordinary" \
        -v most="$most_a_byte" 'BEGIN { print int((3 * most * bytes * ordinary / 1000 + 2 * scope) / 1000000 + 2) }')
      if ! time_again "$2" "$folder/whole$size"; then
        echo "$label: $bytes bytes take more than $seconds s"
        passed+=("$label: a byte costs more than $((3 * most_a_byte)) times one of an ordinary line")
        return
      fi
      net=$((took - scope_took))
      [ "$net" -ge 1 ] || net=1
      if [ "$size" = 1 ]; then half=$net; fi
    done
    awk -v label="$label" -v bytes="$bytes" -v judged=$((bytes - scope_bytes)) -v net="$net" -v half="$half" \
      -v ordinary="$ordinary" -v resident="$resident" -v most_a_byte="$most_a_byte" -v most_doubled="$most_doubled" \
      -v row="$folder/row" -v bounds="$folder/bounds" 'BEGIN {
      a_byte = net * 1000 / judged / ordinary
      doubled = net / half
      printf "%s: %d bytes", label, bytes > row
      if (judged != bytes) printf ", %d of them behind the declarations", judged > row
      printf ": %d us, %.1f ns a byte, %.2f times an ordinary line a byte", net, net * 1000 / judged, a_byte > row
      printf "; %.2f times its half", doubled > row
      if (resident != "") printf "; resident %.1f MB", resident * 1.024 / 1000 > row
      if (resident != "") printf ", %.1f times its bytes", resident * 1024 / bytes > row
      print "" > row
      printf "" > bounds
      if (a_byte > most_a_byte) printf "%s: a byte costs %.1f times one of an ordinary line\n", label, a_byte > bounds
      if (doubled > most_doubled) printf "%s: it costs %.2f times its half\n", label, doubled > bounds
    }'
    [ -s "$folder/bounds" ] || break
  done
  cat "$folder/row"
  while read -r line; do passed+=("$line"); done < "$folder/bounds"
}

# What all rows are compared with is timed three times as well.
label="an ordinary line"
printf '(a\n)a\n' > "$folder/short"
items 240000 > "$folder/items"
for round in 1 2 3; do
  time_again 0 "$folder/short"
  start=$took
  time_again 0 "$folder/items"
done
ordinary=$(awk -v net=$((took - start)) -v bytes="$(wc -c < "$folder/items")" 'BEGIN { print net * 1000 / bytes }')
echo "$label: $ordinary ns a byte"

row names_under_one_long_uri 0
row attributes_under_long_uris 0 scope
row elements_under_a_long_uri 0 scope
row short_names 0
row long_names 0
row elements_with_one_local_name 0
row prefixes_of_one_local_name 0
row nested_declarations 1
row attributes_of_one_byte 0
row attribute_lines_of_one_byte 0

[ "${#passed[@]}" -eq 0 ] || { printf 'hostile: %s\n' "${passed[@]}"; exit 1; }
