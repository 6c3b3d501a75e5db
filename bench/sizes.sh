#!/usr/bin/env bash
# Answers texts of 4,194,304 bytes of the worst kind that each grammar allows (`size_texts.py` writes them), each within ten
# seconds, insertions of moves within a minute, and all within 1 GB. For each it prints the seconds of processor time, the
# peak memory and the first line of the answer, and says so where one takes more than it may. The exit code is 1 where one does.
# Build the program first: `rt run` in crates/anyon_cli proves and builds it. Usage: bench/sizes.sh PROGRAM
set -eu
program=$(realpath "$1")
here=$(dirname "$(realpath "$0")")
folder=$(mktemp -d)
trap 'rm -rf "$folder"' EXIT
python3 "$here/size_texts.py" "$folder" > "$folder/runs"
cd "$folder"
status=0
while IFS=$'\t' read -r seconds what words; do
  read -r -a words <<< "$words"
  /usr/bin/time -q -o spent -f '%U %S %M' timeout 600 "$program" "${words[@]}" > answer 2>&1 || true
  read -r user system kilobytes < spent
  said="${words[0]}, $what: $user s, $((kilobytes / 1024)) MB, $(head -n 1 answer | cut -c 1-60)"
  if awk "BEGIN { exit !($user + $system > $seconds || $kilobytes > 1048576) }"; then
    said="$said, MORE THAN $seconds s OR 1 GB"
    status=1
  fi
  echo "$said"
done < runs
exit $status
