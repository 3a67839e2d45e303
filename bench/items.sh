#!/usr/bin/env bash
# What a list of items costs, each with an attribute and a text: the instructions that `dtmx_pace` takes for 20,000 of
# them, beside those that xsltproc takes for parse and transformation of the same document, where valgrind and xsltproc
# are installed; and the resident size over 300,000 of them, with their text, for each of 900,003 rows.
. "$(dirname "$0")/common.sh"

lines() {
  awk -v items="$1" 'BEGIN {
    print "(list"
    for (i = 1; i <= items; i++) { print "(item"; print "Ak " 37 * i % 100; print "-t" i; print ")item" }
    print ")list"
  }'
}

document() {
  awk -v items="$1" 'BEGIN {
    print "<list>"
    for (i = 1; i <= items; i++) printf "<item k=\"%d\">t%d</item>", 37 * i % 100, i
    print "</list>"
  }'
}

run_pace() { "$pace" --turns=b1000000 "builtin=$folder/out.txt" < "$1"; }

# The millions of instructions of a command whose output is thrown away.
instructions() {
  valgrind --tool=callgrind --callgrind-out-file=/dev/null "$@" 2>&1 > "$folder/ignored" |
    awk '/Collected/ { printf "%.1f", $NF / 1000000 }'
}

lines 20000 > "$folder/source"
ends 0 run_pace "$folder/source"
if command -v valgrind > "$folder/ignored"; then
  echo "20,000 items: dtmx_pace takes $(instructions "$pace" --turns=b1000000 "builtin=$folder/out.txt" < "$folder/source") million instructions"
  if command -v xsltproc > "$folder/ignored"; then
    document 20000 > "$folder/source.xml"
    echo '<xsl:stylesheet version="1.0" xmlns:xsl="http://www.w3.org/1999/XSL/Transform"><xsl:output method="text"/></xsl:stylesheet>' > "$folder/text.xsl"
    echo "20,000 items: xsltproc takes $(instructions xsltproc --nonet "$folder/text.xsl" "$folder/source.xml") million instructions"
  fi
else
  echo "valgrind isn't installed: no instructions"
fi

# The greatest resident size of a run on a source, in kilobytes.
resident() {
  python3 -c 'import os, subprocess, sys
run = subprocess.Popen(sys.argv[2:], stdin=open(sys.argv[1]), stdout=subprocess.DEVNULL)
_, status, used = os.wait4(run.pid, 0)
print(used.ru_maxrss)
sys.exit(status != 0)' "$1" "$pace" --turns=b1000000 "builtin=$folder/out.txt"
}

if command -v python3 > "$folder/ignored"; then
  lines 1 > "$folder/short"
  lines 300000 > "$folder/source"
  short=$(resident "$folder/short")
  whole=$(resident "$folder/source")
  awk -v short="$short" -v whole="$whole" 'BEGIN {
    printf "300,000 items: resident %.1f MB, %.1f of them more than for one item: %.1f bytes a row with its text\n", whole * 1.024 / 1000, (whole - short) * 1.024 / 1000, (whole - short) * 1024 / 900000
  }'
else
  echo "python3 isn't installed: no resident size"
fi
