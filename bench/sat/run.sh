#!/bin/sh
# Compares `knox sat` with a plain solver in C on families of formulas: bench/sat/run.sh FOLDER [PROGRAM], a
# folder outside the checkout that is made. PROGRAM, a program that is given a formula, is measured in place of
# `knox sat`: then Knox isn't built, and the checker in C alone checks proofs. Where minisat, picosat or cadical
# is on the path, its times stand beside. With SMALL=1 the formulas that take long are left out.
set -e
here=$(cd "$(dirname "$0")" && pwd -P)
needs="cc and python3, and rt where no PROGRAM is given; twenty minutes and 300 MB, and half an hour of proofs where the kit keeps none of Knox"
. "$here/../guard.sh"
if [ -n "$2" ]; then
  guard "$1" cc python3
  solves=$2
else
  guard "$1" cc python3 rt
  build_knox
  solves="$program sat"
  printf 'p cnf 1 1\n1 0\n' > "$folder/first.cnf"
  $solves "$folder/first.cnf" | grep -q '^sat$' || { echo "skipped: no knox sat"; exit 77; }
fi
cc -O2 -o "$folder/solver" "$here/solver.c"
cc -O2 -o "$folder/check" "$here/../lrat/check.c"
python3 "$here/generate.py" "$folder" ${SMALL:+small} > "$folder/names"
python3 "$here/measure.py" "$folder" "$solves" "$program" $(cat "$folder/names")
