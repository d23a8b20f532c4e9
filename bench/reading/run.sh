#!/bin/sh
# How long circuits of a million lines take to be read: bench/reading/run.sh FOLDER, a folder outside the
# checkout that is made.
set -e
here=$(cd "$(dirname "$0")" && pwd -P)
needs="python3, bash and rt, about a minute and 250 MB, and half an hour of proofs where the kit keeps none of Knox"
. "$here/../guard.sh"
guard "$1" python3 bash rt
build_knox
cd "$folder"
printf '(' > open

# The specification is faulty, so that a run ends when the circuit is read.
for kind in operators states writes shared ports faulty; do
  python3 "$here/generate.py" $kind > $kind.btor2
  bash -c 'TIMEFORMAT=%U; time "$0" verify "$1" open open open open' "$program" $kind.btor2 > said 2>&1 || true
  echo "$kind: $(wc -l < $kind.btor2) lines, $(wc -c < $kind.btor2) bytes: $(tr '\n' ' ' < said)"
done
