#!/bin/sh
# How many clock edges a second of processor time has: bench/ticks/run.sh FOLDER, a folder outside the
# checkout that is made.
set -e
here=$(cd "$(dirname "$0")" && pwd -P)
needs="python3, awk and rt, about a minute and 10 MB, and minutes of proofs where the kit keeps none"
. "$here/../guard.sh"
guard "$1" python3 awk rt
"$here/../yosys/build.sh" "$folder"
mkdir -p "$folder/circuits"
cd "$folder/circuits"

# A row for so many lines of logic, a ROM of so many words, and so many ticks: the best of five runs.
row() {
  python3 "$here/generate.py" $1 $2 > c_$1_$2.btor2
  for _ in 1 2 3 4 5; do
    "$folder/crates/simulate/out/simulate" time c_$1_$2.btor2 $3
  done | tr '=' ' ' | awk -v logic=$1 '
    { lines = $2; words = $4; rate = $6 * 1e6 / ($8 + 1); if (rate > best) best = rate }
    END { printf "| %d | %d | %d | %d | %.1f |\n", logic, lines, words, best, 1e9 / best / logic }'
}

echo "| lines of logic | lines | words | ticks/s | nanoseconds for a line of logic |"
echo "|---|---|---|---|---|"
row 150 256 40000
row 600 256 20000
row 2400 256 10000
row 600 2 20000
row 600 4096 4000
