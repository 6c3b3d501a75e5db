#!/usr/bin/env bash
# Times raises of trees of 13, 17 and 21 Fibonacci strands: 233, 1,597 and 10,946 amplitudes. Each node of the right comb is
# raised and raised back; what the way there and back costs is taken off. Beside it stands the time of as many products
# and sums alone, at PRODUCT and SUM nanoseconds for one, which `bench/numbers.sh` tells at the root 5 (130 and 32 where
# they aren't given). Then the peak memory of a run that ends in 59,049 amplitudes, by 22 strands of spin 1/2 in SU(2) at
# level 4. All run on one processor.
# Build the program first: `rt run` in crates/anyon_cli proves and builds it.
# Usage: bench/raise.sh PROGRAM [PRODUCT SUM]
set -eu
program=$(realpath "$1")
product=${2:-130}
sum=${3:-32}
here=$(dirname "$(realpath "$0")")
folder=$(mktemp -d)
trap 'rm -rf "$folder"' EXIT
cp "$here/../crates/anyon_cli/data/category.txt" "$folder/category.txt"
cd "$folder"

# Milliseconds of processor time that a program text takes.
spent() {
  local TIMEFORMAT=%U
  { time taskset -c 0 "$program" trees category.txt "$1" > answer.txt; } 2>&1 | tr -d .
}

# The products of a program text.
products() {
  python3 "$here/raise_counts.py" < "$1" | tail -n 1 | cut -d ' ' -f 2
}

for row in '13 150' '17 40' '21 5'; do
  read -r strands rounds <<< "$row"
  python3 "$here/raise_program.py" "$strands" 0 > once.txt
  python3 "$here/raise_program.py" "$strands" "$rounds" > often.txt
  once=$(spent once.txt)
  often=$(spent often.txt)
  # The raised tree ends as it began.
  grep -q -x "amp$(printf ' t%.0s' $(seq $((strands - 1)))) 1" answer.txt
  raises=$((rounds * 2 * (strands - 2)))
  terms=$(($(products often.txt) - $(products once.txt)))
  took=$((10#$often - 10#$once))
  echo "$strands strands: $((took * 1000 / raises)) us a raise of $((terms / raises)) products and sums," \
    "$((took * 1000000 / terms)) ns for one of each; alone $((product + sum)) ns"
done

python3 "$here/../examples/su2.py" 4 > category.txt
python3 "$here/raise_program.py" 22 there 1 2,1 > program.txt
/usr/bin/time -f '%M KB' "$program" trees category.txt program.txt > answer.txt 2> memory.txt
echo "$(grep -c '^amp' answer.txt) amplitudes: $(tail -n 1 memory.txt)"
