#!/bin/sh
# Builds and runs the speed test in both languages: bench/words/run.sh FOLDER, a folder outside the checkout
# that is made.
set -e
here=$(cd "$(dirname "$0")" && pwd -P)
needs="rustc and rt, and some minutes of proofs"
. "$here/../guard.sh"
guard "$1" rustc rt
rm -rf "$folder/crates"
mkdir -p "$folder/.git" "$folder/crates/knox_words" "$folder/crates/fold/src"
for part in src specs proofs; do
  cp -r "$top/crates/knox_words/$part" "$folder/crates/knox_words/$part"
done
printf 'knox_words:\nfold: knox_words\n' > "$folder/crates.txt"
cp "$here/fold.rt.txt" "$folder/crates/fold/src/main.rt"
rustc -O "$here/fold.rs" -o "$folder/fold"
echo "plain Rust:"
"$folder/fold"
echo "Rattle:"
(cd "$folder/crates/fold" && rt run)
