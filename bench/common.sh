# What the scripts of bench/ share; each of them reads it first. PACE names another program than the built one.
set -eu
cd "$(dirname "$0")/.."
pace=${PACE:-crates/dtmx_pace/out/dtmx_pace}
[ -x "$pace" ] || { echo "$0: no $pace: run 'make build'" >&2; exit 1; }
folder=$(mktemp -d)
trap 'rm -rf "$folder"' EXIT

# A list of items, each a start, a text and an end, with so many lines in all.
items() {
  awk -v lines="$1" 'BEGIN {
    print "(list"
    for (i = 0; i < int((lines - 2) / 3); i++) { print "(item"; print "-the text of item number " i; print ")item" }
    for (i = 0; i < (lines - 2) % 3; i++) print "-."
    print ")list"
  }'
}

# STATUS COMMAND: runs a command once, and fails the script where it ends with another status than that, since a cost
# says nothing of a run that did something else.
ends() {
  local wanted=$1 status=0
  shift
  "$@" > "$folder/ended" 2>&1 || status=$?
  [ "$status" -eq "$wanted" ] || { echo "$0: $*: status $status, which isn't $wanted: $(tail -n 1 "$folder/ended")" >&2; exit 1; }
}

# The processor time of one run of a command in microseconds, so that it can be read on a busy machine too: the least
# of three groups of `runs` runs, each over its number of runs.
cost() {
  local best= took TIMEFORMAT='%3U %3S'
  for _ in 1 2 3; do
    took=$({ time for ((i = 0; i < runs; i++)); do "$@" > "$folder/ignored" 2>&1; done; } 2>&1)
    took=$(awk -v runs="$runs" '{ printf "%d", ($1 + $2) * 1000000 / runs }' <<< "$took")
    if [ -z "$best" ] || [ "$took" -lt "$best" ]; then best=$took; fi
  done
  echo "$best"
}
