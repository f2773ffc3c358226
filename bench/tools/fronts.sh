#!/bin/sh
# Compares what the built program `choose` writes with the search of fronts.py. From the top of the
# repository:
#
#   sh bench/tools/fronts.sh [BINARY]          BINARY: crates/choose/out/choose if it is left out
#
# For each F from 0 to 85, five moduli, and 256 nodes at most; and for eight F, three moduli and ten
# numbers of nodes at most: of the plans of `counterlab` alone, and of both constructions. Then what
# `within` tolerates, and what is said if there is no plan. It stops at the first that differs,
# and then ends with a status that is not 0. It takes about a minute.
set -e
binary=${1:-crates/choose/out/choose}
here=$(dirname "$0")
room=$(mktemp -d)
trap 'rm -rf "$room"' EXIT

# compare MOST "FAULTS .." "MODULI .."
compare() {
  : > "$room/list"
  : > "$room/both"
  for faults in $2; do
    for modulus in $3; do
      "$binary" boosting "$faults" "$modulus" "$1" > "$room/$faults.$modulus"
      echo "$faults $modulus $room/$faults.$modulus" >> "$room/list"
      "$binary" "$faults" "$modulus" "$1" > "$room/$faults.$modulus.both"
      echo "$faults $modulus $room/$faults.$modulus.both" >> "$room/both"
    done
  done
  python3 "$here/fronts.py" check "$1" < "$room/list"
  python3 "$here/fronts.py" both "$1" < "$room/both"
}

compare 256 "$(seq -s ' ' 0 85)" "2 10 1000 1048576 1099511627776"
for most in 1 3 4 9 13 14 36 81 100 255; do
  compare "$most" "0 1 2 3 5 8 17 33" "2 1000 1099511627776"
done
python3 "$here/fronts.py" within "$binary"
python3 "$here/fronts.py" none "$binary"
