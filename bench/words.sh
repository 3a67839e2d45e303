#!/usr/bin/env bash
# What a get of a set-once word costs beside a load from a vector, in processor time of one run: the program
# `word_cases` reads 2,048 words 200 million times, in two ways. `follow`: each word says which is read next, as links
# do. `sum`: the words are read in order and added up, so that no load waits for the one before. The status is 1 where
# the two answers differ, or where a get costs more than three times a load.
PACE=crates/word_cases/out/word_cases
. "$(dirname "$0")/common.sh"

runs=1
for way in follow sum; do
  [ "$("$pace" "$way-words")" = "$("$pace" "$way-vector")" ]
  words=$(cost "$pace" "$way-words")
  vector=$(cost "$pace" "$way-vector")
  awk -v way="$way" -v words="$words" -v vector="$vector" 'BEGIN {
    printf "%s: a get %.2f ns, a load from a vector %.2f ns: %.2f times\n", way, words / 200000, vector / 200000, words / vector
    exit words > 3 * vector
  }'
done
