# Sourced by scripts that write, before they do. `needs` says what a script needs, in words; `here` is its
# folder, which is two below the top of the checkout.
#
#   guard FOLDER TOOL..    makes FOLDER, and sets `folder` to its path and `top` to that of the checkout
#
# Ends the script, before the first write, with 2 where FOLDER isn't given, lies in the checkout or holds it,
# or has files and no mark of an earlier run; and with 77 and "skipped" where a TOOL isn't on the path.

guard() {
  top=$(cd "$here/../.." && pwd -P)
  if [ -z "$1" ]; then
    echo "usage: $0 FOLDER" >&2
    echo "FOLDER lies outside the checkout, and is new, empty, or of an earlier run." >&2
    echo "Needs $needs." >&2
    exit 2
  fi
  folder=$(readlink -m -- "$1")
  case "${folder%/}/" in
    "$top"/*) refuse "lies in the checkout $top" ;;
  esac
  case "$top/" in
    "${folder%/}"/*) refuse "holds the checkout $top" ;;
  esac
  if [ -e "$folder" ] && [ ! -d "$folder" ]; then
    refuse "is no folder"
  fi
  if [ -n "$(ls -A "$folder" 2>/dev/null)" ] && [ ! -f "$folder/.made-by-knox" ]; then
    refuse "has files that aren't of an earlier run: name a new one"
  fi
  shift
  for tool in "$@"; do
    command -v "$tool" >/dev/null || { echo "skipped: no $tool"; exit 77; }
  done
  echo "needs $needs" >&2
  mkdir -p "$folder"
  : > "$folder/.made-by-knox"
}

refuse() {
  echo "$0: $folder $1" >&2
  exit 2
}

# Builds Knox in the folder, where it isn't yet, and sets `program` to the file that runs without the script.
build_knox() {
  KNOX_BUILD=$folder/build "$top/knox" > "$folder/usage" 2> "$folder/said" || true
  cat "$folder/said" >&2
  program=$(ls -t "$folder"/build/knox-* | head -1)
  [ -x "$program" ]
}
