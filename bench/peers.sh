#!/usr/bin/env bash
# Times `check` on the SU(2) category of a level (10 where none is given) beside GAP and PARI on the same equations: both
# inverses of F, the pentagon and both hexagons. The peers are Debian's gap-core and pari-gp, those that are installed; the
# time in which they read the symbols is taken off. Prints how many times faster `check` is. All run on one processor.
# Build the program first: `rt run` in crates/anyon_cli proves and builds it. Usage: bench/peers.sh PROGRAM [LEVEL]
set -eu
program=$(realpath "$1")
level=${2:-10}
here=$(dirname "$(realpath "$0")")
folder=$(mktemp -d)
trap 'rm -rf "$folder"' EXIT
cd "$folder"
python3 "$here/../examples/su2.py" "$level" > category.txt
for language in g gp; do
  python3 "$here/category_list.py" category.txt $language > category_list.$language
done
printf 'Read("category_list.g");\nQUIT;\n' > read.g
printf 'default(parisizemax, 4000000000);\nread("category_list.gp");\nquit;\n' > read.gp

# Milliseconds of processor time that a command takes; what it prints goes to answer.txt.
spent() {
  local TIMEFORMAT=%U
  { time taskset -c 0 "$@" > answer.txt 2> /dev/null < /dev/null; } 2>&1 | tr -d .
}

ours=$(spent "$program" check category.txt)
echo "SU(2) at level $level, check: $((10#$ours)) ms ($(head -n 1 answer.txt))"

# A peer beside it: its name, its program, and the files with and without the laws.
beside() {
  local name=$1 reading whole
  shift
  command -v "$1" > /dev/null || { echo "$name is not installed"; return; }
  reading=$(spent "$1" -q "$3")
  whole=$(spent "$1" -q "$2")
  echo "$name: $((10#$whole - 10#$reading)) ms, $(((10#$whole - 10#$reading) / 10#$ours)) times as long ($(cat answer.txt))"
}

beside GAP gap "$here/check.g" read.g
beside PARI gp "$here/check.gp" read.gp
