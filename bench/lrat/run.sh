#!/bin/sh
# Compares `knox check` with a plain checker in C on families of proofs: bench/lrat/run.sh FOLDER, a folder
# outside the checkout that is made. A second word says of how many lines the chain's proof is, in place of
# 150,000. Where `cadical` is on the path, proofs that it makes are among them.
set -e
here=$(cd "$(dirname "$0")" && pwd -P)
needs="cc, python3 and rt, ten minutes and 300 MB, and half an hour of proofs where the kit keeps none of Knox"
. "$here/../guard.sh"
guard "$1" cc python3 rt
build_knox
cc -O2 -o "$folder/check" "$here/check.c"
python3 "$here/make.py" "$folder" "${2:-150000}" > "$folder/names"
python3 "$here/measure.py" "$folder" "$program" $(cat "$folder/names")
