#!/usr/bin/env bash
# Times `comb` on sixteen Fibonacci strands with 4,095 braids and one measurement.
# Build the program first: `rt run` in crates/anyon_cli proves and builds it. Usage: bench/braids.sh PROGRAM
set -eu
program=$(realpath "$1")
here=$(dirname "$(realpath "$0")")
folder=$(mktemp -d)
trap 'rm -rf "$folder"' EXIT
cp "$here/../crates/anyon_cli/data/category.txt" "$folder/category.txt"
{
  echo 'program 1'
  # The left-combed tree of sixteen t strands with the node labels 1 t 1 t ..
  tree='t'
  label='1'
  for _ in $(seq 15); do
    tree="($tree t):$label"
    if [ "$label" = 1 ]; then label=t; else label=1; fi
  done
  echo "start $tree"
  # Each braid is undone at once, so that no number grows.
  for i in $(seq 0 4094); do
    gap=$((1 + (i / 2) % 15))
    if [ $((i % 2)) = 0 ]; then echo "braid $gap +"; else echo "braid $gap -"; fi
  done
  echo 'measure 8'
} > "$folder/program.txt"
cd "$folder"
/usr/bin/time -f '%e s, %M KB' "$program" comb category.txt program.txt
