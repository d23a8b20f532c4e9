#!/bin/sh
# How long a power-cycle takes, of circuits of the usual shape and of one made to be dear:
# bench/power/run.sh FOLDER, a folder outside the checkout that is made.
set -e
here=$(cd "$(dirname "$0")" && pwd -P)
needs="python3 and rt, about a minute and 10 MB, and minutes of proofs where the kit keeps none"
. "$here/../guard.sh"
guard "$1" python3 rt
"$here/../yosys/build.sh" "$folder"
mkdir -p "$folder/circuits"
cd "$folder/circuits"

for row in "usual 1000 100" "usual 100000 1" "dear 1000 100" "dear 10000 1" "dear 30000 1"; do
  set -- $row
  python3 "$here/generate.py" $1 $2 > $1_$2.btor2
  echo "$1, $2 states: $("$folder/crates/simulate/out/simulate" power $1_$2.btor2 $3)"
done
