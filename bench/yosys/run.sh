#!/bin/sh
# Compares circuits that Yosys writes with their Verilog under Icarus Verilog: bench/yosys/run.sh FOLDER, a
# folder outside the checkout that is made. Status 0 where all agrees, 77 where a program is missing.
set -e
here=$(cd "$(dirname "$0")" && pwd -P)
needs="yosys, iverilog, vvp, python3 and rt, about a minute, and minutes of proofs where the kit keeps none"
. "$here/../guard.sh"
guard "$1" yosys iverilog vvp python3 rt
ticks=2000
seed=1
designs="pin_store fifo accumulator operators"

mkdir -p "$folder/designs"
"$here/build.sh" "$folder"
simulate=$folder/crates/simulate/out/simulate
cd "$folder/designs"

# The circuit of a design; a second word is an option of read_verilog.
circuit_of() {
  yosys -q -p "read_verilog $2 $here/$1.v; prep -flatten -top $1; memory_nordff; async2sync; dffunmap; write_btor $1.btor2"
}

for design in $designs; do
  circuit_of $design
  python3 "$here/stimuli.py" "$here/$design.v" $ticks $seed .
  iverilog -g2005 -o $design.vvp ${design}_bench.v "$here/$design.v"
  vvp -n $design.vvp > $design.icarus
  "$simulate" run $design.btor2 $design.inputs > $design.knox
  python3 "$here/compare.py" $design $ticks $design.icarus $design.knox
done

# The comparison can fail: a circuit whose first `eq` is a `neq` differs.
sed '0,/ eq /s/ eq / neq /' fifo.btor2 > changed.btor2
"$simulate" run changed.btor2 fifo.inputs > changed.knox
if python3 "$here/compare.py" changed $ticks fifo.icarus changed.knox > changed.told; then
  echo "a changed circuit agrees"
  exit 1
fi
echo "$(head -1 changed.told), as it must"

# What leaves the form of circuits is refused at its line: the first that begins with these words.
refused() {
  circuit_of $1 $4
  at=$(grep -nE "^[0-9]+ $2( |\$)" $1.btor2 | head -1 | cut -d: -f1)
  if "$simulate" run $1.btor2 fifo.inputs > $1.told 2>&1; then
    echo "$1 is accepted"
    exit 1
  fi
  grep -q "line $at $3" $1.told || { echo "$1: no 'line $at $3' in"; cat $1.told; exit 1; }
  echo "$1: line $at $3, as it must"
}

refused assumed constraint Constraint -formal
refused wide "sort bitvec 129" Sort
refused deep "sort array" Sort
