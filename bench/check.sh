#!/usr/bin/env bash
# Times `check` on the SU(2) categories of level 6 and of level 10, beside a plain C++ checker with the same order of
# laws and the same fit tests; each on one processor, with its peak memory.
# Build the program first: `rt run` in crates/anyon_cli proves and builds it. Usage: bench/check.sh PROGRAM
set -eu
program=$(realpath "$1")
here=$(dirname "$(realpath "$0")")
folder=$(mktemp -d)
trap 'rm -rf "$folder"' EXIT
cd "$folder"
g++ -O2 -o plain "$here/plain_check.cpp"
for level in 6 10; do
  python3 "$here/../examples/su2.py" "$level" > category.txt
  echo "SU(2) at level $level:"
  for checker in "$program check" './plain'; do
    /usr/bin/time -f "  ${checker##*/}: %U s of the processor, %M KB" taskset -c 0 $checker category.txt > answer.txt 2> times.txt
    grep 'of the processor,' times.txt | tail -n 1
    cat answer.txt
  done
done
