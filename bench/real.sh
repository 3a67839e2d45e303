#!/usr/bin/env bash
# The text of XML documents: `contrib/xml2pyx DOCUMENT | dtmx_pace builtin=OUT` beside what xsltproc gives of the
# document by an empty stylesheet, byte for byte, and what each of them costs in processor time, all in one run. The
# documents are real ones, which Debian has in xkb-data, shared-mime-info and iso-codes, and a list of 100,000 items.
# Then how much has come out of a slow document when a tenth of it has gone in.
#
# Where xsltproc isn't installed, the text is that of xmlstarlet. A document that isn't installed is skipped; the
# status is 1 where a text differs or isn't given.
. "$(dirname "$0")/common.sh"
[ -x contrib/xml2pyx ] || { echo "$0: no contrib/xml2pyx: run 'make contrib'" >&2; exit 1; }
documents=(
  /usr/share/X11/xkb/rules/evdev.xml
  /usr/share/xml/iso-codes/iso_639-3.xml
  /usr/share/mime/packages/freedesktop.org.xml
  "$folder/sample.xml"
)

awk 'BEGIN {
  print "<?xml version=\"1.0\"?>"
  printf "<list>"
  for (i = 1; i <= 100000; i++) printf "<item k=\"%d\">t%d</item>", 37 * i % 100, i
  print "</list>"
}' > "$folder/sample.xml"
cat > "$folder/text.xsl" << 'XSL'
<xsl:stylesheet version="1.0" xmlns:xsl="http://www.w3.org/1999/XSL/Transform"><xsl:output method="text"/></xsl:stylesheet>
XSL

run_lines() { contrib/xml2pyx "$1" > "$folder/lines"; }
run_pace() { "$pace" --turns=b1000000 "builtin=$folder/out.txt" < "$folder/lines" > "$folder/said"; }
run_each() { contrib/xml2pyx "$1" | "$pace" "builtin=$folder/each.txt" > "$folder/said_each"; }
run_both() { contrib/xml2pyx "$1" | "$pace" --turns=b1000000 "builtin=$folder/both.txt" > "$folder/said_both"; }
run_xsltproc() { xsltproc --nonet "$folder/text.xsl" "$1" > "$folder/other.txt"; }
run_xmlstarlet() { xmlstarlet sel -T -t -v / "$1" > "$folder/other.txt"; }
other=
for program in xmlstarlet xsltproc; do
  if command -v "$program" > /dev/null; then other=$program; else echo "$program isn't installed: skipped"; fi
done
[ -n "$other" ] || exit 0

runs=5

# What the parts and the whole cost on a document, and the whole beside the other program: with one turn at the end,
# and with a turn after each line.
costs() {
  local whole each reference
  whole=$(cost run_both "$1")
  each=$(cost run_each "$1")
  reference=$(cost "run_$other" "$1")
  awk -v other="$other" -v lines="$(cost run_lines "$1")" -v pace="$(cost run_pace)" -v whole="$whole" -v each="$each" -v reference="$reference" 'BEGIN {
    printf "xml2pyx %d us, dtmx_pace %d us, both %d us, %s %d us: %.2f times; with a turn after each line %.2f times", lines, pace, whole, other, reference, whole / reference, each / reference
  }'
}

agree=0 differ=0 skipped=0
for document in "${documents[@]}"; do
  name=$(basename "$document")
  if [ ! -e "$document" ]; then
    echo "$document isn't installed: skipped"
    skipped=$((skipped + 1))
    continue
  fi
  rm -f "$folder/out.txt"
  if ! "run_$other" "$document" || ! run_lines "$document"; then
    echo "$name: no text or no lines"
    differ=$((differ + 1))
  elif ! run_pace; then
    echo "$name: dtmx_pace says $(tail -n 1 "$folder/said")"
    differ=$((differ + 1))
  elif ! cmp "$folder/out.txt" "$folder/other.txt"; then
    echo "$name: the text isn't that of $other"
    differ=$((differ + 1))
  else
    agree=$((agree + 1))
    echo "$name: $(wc -c < "$document") bytes, $(wc -l < "$folder/lines") lines, $(wc -c < "$folder/out.txt") bytes of text as by $other; $(costs "$document")"
  fi
done
echo "$agree texts agree, $differ don't, $skipped documents skipped"

# The sample through a pipe that rests for a second when a tenth has been written. `tee` notes what goes to dtmx_pace.
run_lines "$folder/sample.xml"
bytes=$(wc -c < "$folder/sample.xml")
tenth=$((bytes / 10))
mkfifo "$folder/slow"
contrib/xml2pyx < "$folder/slow" | tee "$folder/seen" | "$pace" "builtin=$folder/slow.txt" > /dev/null &
exec 3> "$folder/slow"
head -c "$tenth" "$folder/sample.xml" >&3
sleep 1
echo "when $tenth of $bytes bytes of the sample had come, dtmx_pace had $(wc -l < "$folder/seen") of $(wc -l < "$folder/lines") lines"
tail -c "+$((tenth + 1))" "$folder/sample.xml" >&3
exec 3>&-
wait
cmp "$folder/seen" "$folder/lines"
[ "$differ" -eq 0 ]
