#!/usr/bin/env bash
# Times products and sums of cyclotomic numbers with dense numerators over 1, at the roots 60, 16 and 5, in
# nanoseconds of processor time for one, and the same by FLINT (Debian: libflint-dev, libantic-dev; left out
# where it isn't there) and by the plain double sum in C++. Numerators are below 10, or 2^25 times as large.
# All run on one processor.
# The first run proves and builds the program, which takes a few minutes. Usage: bench/numbers.sh
set -eu
here=$(dirname "$(realpath "$0")")
folder=$(mktemp -d)
trap 'rm -rf "$folder"' EXIT

build() {
  mkdir -p "$folder/crates/number_bench/src" "$folder/crates/number_bench/specs" "$folder/crates/number_bench/proofs/dense"
  for crate in ring_laws poly_core cyclo_core; do
    mkdir "$folder/crates/$crate"
    cp -r "$here/../crates/$crate/src" "$here/../crates/$crate/specs" "$here/../crates/$crate/proofs" "$folder/crates/$crate"
  done
  grep -E '^(ring_laws|poly_core|cyclo_core):' "$here/../crates.txt" > "$folder/crates.txt"
  echo 'number_bench: ring_laws cyclo_core' >> "$folder/crates.txt"
  cp "$here/numbers/program.txt" "$folder/crates/number_bench/src/main.rt"
  cp "$here/numbers/invariants.txt" "$folder/crates/number_bench/proofs/dense/Invariants.antt"
  touch "$folder/crates/number_bench/specs/Lib.antt" "$folder/crates/number_bench/proofs/Lib.antt"
  (cd "$folder/crates/number_bench" && rt run -- product 60 1) > "$folder/log" 2>&1 || { cat "$folder/log"; exit 1; }
  cp "$folder/crates/number_bench/out/number_bench" "$folder/ours"
  c++ -O2 -o "$folder/plain" "$here/numbers/plain.cpp"
  cc -O2 -o "$folder/flint" "$here/numbers/flint.c" -lflint -lgmp 2> /dev/null ||
    cc -O2 -o "$folder/flint" "$here/numbers/flint.c" -lantic -lflint -lgmp 2> /dev/null ||
    echo 'FLINT is not installed'
}

# Milliseconds of processor time that a command takes.
spent() {
  local TIMEFORMAT=%U
  { time taskset -c 0 "$@" > /dev/null; } 2>&1 | tr -d .
}

# The time of N more of 2 N, so that what is done once doesn't count.
row() {
  local name=$1 count=$2
  shift 2
  local once twice
  once=$(spent "$@" "$count")
  twice=$(spent "$@" $((2 * count)))
  echo "$name: $(((10#$twice - 10#$once) * 1000000 / count)) ns"
}

build
for root in 60 16 5; do
  row "product at root $root" 2000000 "$folder/ours" product $root
  [ -x "$folder/flint" ] && row "product at root $root, FLINT" 500000 "$folder/flint" product $root
  row "product at root $root, plain C++ in 128 bits" 200000 "$folder/plain" product $root
  row "large product at root $root" 200000 "$folder/ours" large $root
  [ -x "$folder/flint" ] && row "large product at root $root, FLINT" 500000 "$folder/flint" large $root
  row "sum at root $root" 4000000 "$folder/ours" sum $root
  [ -x "$folder/flint" ] && row "sum at root $root, FLINT" 4000000 "$folder/flint" sum $root
done
