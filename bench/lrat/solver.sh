#!/bin/sh
# Checks proofs of ten formulas that an installed solver makes: bench/lrat/solver.sh FOLDER, a folder outside
# the checkout that is made.
set -e
here=$(cd "$(dirname "$0")" && pwd -P)
needs="cadical, python3 and rt, a minute and 10 MB, and half an hour of proofs where the kit keeps none of Knox"
. "$here/../guard.sh"
guard "$1" cadical python3 rt
build_knox
python3 "$here/solver.py" "$folder" "$program"
