#!/usr/bin/env bash
# Times `run` and `comb`: a hundred random braids on sixteen Fibonacci strands, beside GAP, PARI and plain C++ on sparse
# braid matrices (those that are installed), with the same total; then runs at the limits: 65,536 amplitudes, 4,096 words,
# 4,096 commands. Each line tells seconds of processor time and the peak memory; `run`, `comb` and plain C++, which are short,
# are also told in milliseconds by the mean of twenty runs.
# Build the program first: `rt run` in crates/anyon_cli proves and builds it. Usage: bench/runs.sh PROGRAM
set -eu
program=$(realpath "$1")
here=$(dirname "$(realpath "$0")")
folder=$(mktemp -d)
trap 'rm -rf "$folder"' EXIT
cd "$folder"
cp "$here/../crates/anyon_cli/data/category.txt" fibonacci.txt

# Runs a command and tells what it took behind a name.
took() {
  local name=$1
  shift
  /usr/bin/time -o time.txt -f '%U s, %M KB' "$@" > answer.txt < /dev/null
  echo "$name: $(tail -n 1 time.txt); $(head -n 1 answer.txt)"
}

python3 "$here/braid_list.py" 16 100 7 program > hundred.txt
python3 "$here/braid_list.py" 16 100 7 gap > braid_list.g
python3 "$here/braid_list.py" 16 100 7 pari > braid_list.gp
python3 "$here/braid_list.py" 16 100 7 plain > plain.txt
# The milliseconds of processor time of one of twenty runs of a command.
mean() {
  local name=$1 spent
  shift
  spent=$({ TIMEFORMAT=%U; time for _ in $(seq 20); do "$@" > answer.txt < "${input:-/dev/null}"; done; } 2>&1 | tr -d .)
  echo "$name: $((10#$spent / 20)) ms"
}

took 'run, 100 braids' "$program" run fibonacci.txt hundred.txt
took 'comb, 100 braids' "$program" comb fibonacci.txt hundred.txt
mean 'run, 100 braids' "$program" run fibonacci.txt hundred.txt
mean 'comb, 100 braids' "$program" comb fibonacci.txt hundred.txt
if command -v gap > found.txt; then took 'GAP' gap -q "$here/braids.g"; fi
if command -v gp > found.txt; then took 'PARI' gp -q "$here/braids.gp"; fi
if command -v g++ > found.txt; then
  g++ -O2 -o plain "$here/braids.cpp"
  took 'plain C++' sh -c './plain < plain.txt'
  input=plain.txt mean 'plain C++' ./plain
fi

# Ten measurements of sixteen Ising strands in turn leave a thousand words, and seven raises spread each.
cat > ising.txt <<'END'
category 1
root 16
labels 1 s p
fuse s s 1
fuse s s p
fuse s p s
fuse p s s
fuse p p 1
f s s s s 1 1 0,0,1,0,0,0,-1/2
f s s s s 1 p 0,0,1,0,0,0,-1/2
f s s s s p 1 0,0,1,0,0,0,-1/2
f s s s s p p 0,0,-1,0,0,0,1/2
f s p s p s s -1
f p s p s s s -1
r s s 1 0,0,0,0,0,0,0,-1
r s s p 0,0,0,1
r s p s 0,0,0,0,-1
r p s s 0,0,0,0,-1
r p p 1 -1
END
tree='s'
label='1'
for _ in $(seq 15); do
  tree="($tree s):$label"
  if [ "$label" = 1 ]; then label=s; else label=1; fi
done
{
  echo 'program 1'
  echo "start $tree"
  for _ in $(seq 5); do printf 'measure 2\nmeasure 1\n'; done
  for gap in 1 3 5 7 9 11; do echo "raise $gap"; done
} > wide.txt
took 'run, 65,536 amplitudes' "$program" run ising.txt wide.txt
{
  echo 'program 1'
  echo 'start ((t t):1 (t t):1):1'
  for _ in $(seq 6); do printf 'measure 2\nmeasure 1\n'; done
} > words.txt
took 'run, 4,096 words' "$program" run fibonacci.txt words.txt
{
  head -n 2 hundred.txt
  for i in $(seq 0 4094); do
    if [ $((i % 2)) = 1 ]; then
      echo "raise $((1 + i * 7 % 15))"
    elif [ $((i / 2 % 2)) = 0 ]; then
      echo "braid $((1 + i / 4 % 15)) +"
    else
      echo "braid $((1 + i / 4 % 15)) -"
    fi
  done
  echo 'measure 8'
} > commands.txt
took 'run, 4,096 commands' "$program" run fibonacci.txt commands.txt
