#!/usr/bin/env bash
# Times `make 12` (2,048 turns over two sites) and `linked` on moves texts of up to 4,194,304 bytes over a program of 4,096
# braids: pairs of an insertion and its cancellation, far exchanges there and back, Yang-Baxter there and back, and
# insertions alone, near one place and at both ends in turn. It prints the verdict's line, the seconds of processor time and
# the peak memory of each. All run on one processor.
# Build the program first: `rt run` in crates/anyon_cli proves and builds it.
# Usage: bench/moves.sh PROGRAM
set -eu
program=$(realpath "$1")
here=$(dirname "$(realpath "$0")")
folder=$(mktemp -d)
trap 'rm -rf "$folder"' EXIT
cp "$here/../crates/anyon_cli/data/category.txt" "$folder/category.txt"
cd "$folder"

# What a command line takes.
took() {
  local what=$1
  shift
  /usr/bin/time -f '%U s, %M KB' -o spent.txt taskset -c 0 "$program" "$@" > answer.txt || true
  echo "$what: $(tail -n 1 answer.txt), $(tail -n 1 spent.txt)"
}

# Lines, from the second on, over and over while the text has room.
moves() {
  {
    echo 'moves 1'
    yes "$1"
  } | head -c 4194304 | sed '$d' > moves.txt
}

took 'make 12' make 12
{
  echo 'program 1'
  tree=t
  label=1
  for _ in $(seq 15); do
    tree="($tree t):$label"
    if [ "$label" = 1 ]; then label=t; else label=1; fi
  done
  echo "start $tree"
  for i in $(seq 0 1023); do
    printf 'braid 1 +\nbraid 2 +\nbraid 1 +\nbraid 5 -\n'
  done
} > program.txt

# Each text leaves the letters as they were, so its last move may only be one that ends a pair.
run_pairs() {
  moves "$2"
  if [ $((($(wc -l < moves.txt) - 1) % 2)) = 1 ]; then sed -i '$d' moves.txt; fi
  took "$1, $(($(wc -l < moves.txt) - 1)) moves" linked category.txt program.txt program.txt moves.txt
}
run_pairs 'insert and cancel' $'insert 2000 3 +\ncancel 2000'
run_pairs 'far' $'far 3\nfar 3'
run_pairs 'yb' $'yb 1\nyb 1'
moves 'insert 2000 3 +'
took "insertions at one place, $(($(wc -l < moves.txt) - 1)) moves" linked category.txt program.txt program.txt moves.txt
moves $'insert 1 3 +\ninsert 4097 3 +'
took "insertions at two places, $(($(wc -l < moves.txt) - 1)) moves" linked category.txt program.txt program.txt moves.txt
