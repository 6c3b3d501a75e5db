#!/usr/bin/env bash
# Times `format` on category texts of 4,194,304 bytes and tells its peak memory: as many F-symbols as there is room for,
# numbers of four parts, and numbers of sixteen parts.
# Build the program first: `rt run` in crates/anyon_cli proves and builds it. Usage: bench/texts.sh PROGRAM
set -eu
program=$(realpath "$1")
here=$(dirname "$(realpath "$0")")
folder=$(mktemp -d)
trap 'rm -rf "$folder"' EXIT
cd "$folder"
for form in '5 1 1' '5 4 2' '60 16 4'; do
  read -r root parts digits <<< "$form"
  python3 "$here/dense_category.py" "$root" "$parts" "$digits" > category.txt
  echo "root $root, $parts parts of up to $digits digits: $(grep -c '^f ' category.txt) F-symbols"
  /usr/bin/time -f '%e s, %M KB' "$program" format category.txt > canonical.txt
  # The text is canonical but for its comments.
  grep -v '^#' category.txt | cmp - canonical.txt
done
