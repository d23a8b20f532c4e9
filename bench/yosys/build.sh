#!/bin/sh
# Makes FOLDER a repository with the reader of circuits, what it stands on and the program `simulate`, and
# builds that: bench/yosys/build.sh FOLDER. The program is FOLDER/crates/simulate/out/simulate.
set -e
here=$(cd "$(dirname "$0")" && pwd -P)
needs="rt, and minutes of proofs where the kit keeps none of these crates from an earlier run"
. "$here/../guard.sh"
guard "$1" rt
program=$folder/crates/simulate
below=$(sed -n 's/^btor_read: //p' "$top/crates.txt")
rm -rf "$folder/crates"
mkdir -p "$folder/.git" "$program/src"
cp "$top/HANDLES" "$folder/HANDLES"
: > "$folder/crates.txt"
for crate in $below btor_read; do
  [ -d "$top/crates/$crate" ] || continue
  mkdir -p "$folder/crates/$crate"
  for part in src specs proofs; do
    [ ! -d "$top/crates/$crate/$part" ] || cp -r "$top/crates/$crate/$part" "$folder/crates/$crate/$part"
  done
  grep "^$crate:" "$top/crates.txt" >> "$folder/crates.txt"
done
printf 'simulate: %s btor_read anyhow\n' "$below" >> "$folder/crates.txt"
cp "$here/simulate.rt.txt" "$program/src/main.rt"
# (the run at the end of a build has no words, which the program refuses)
echo 1 > "$program/status"
echo "proving and building in $folder, by its build.log" >&2
(cd "$folder" && rt ci) > "$folder/build.log" 2>&1 || { tail -n 40 "$folder/build.log"; exit 1; }
[ -x "$program/out/simulate" ]
