#!/usr/bin/env bash
# Tests the scripts `knox` and `knox-try` over a small checkout and a stand-in for the kit's command rt, and
# the guard of the scripts in bench/: tests/run.sh FOLDER [CASE..]. Half a minute. Status 1 where a case fails.
here="$(cd "$(dirname "$0")/stand-in" && pwd -P)"
needs="bash, flock and awk"
source "$here/../../bench/guard.sh"
guard "$1" flock awk setsid

failed=0
log="$folder/cases.log"
: >"$log"

# A case is a function. It fails by its first expectation that isn't met.
expect() {
  "$@" >>"$log" 2>&1 && return
  echo "  expected: $*" | tee -a "$log"
  sed 's/^/    /' "$work/out" "$work/err" 2>/dev/null
  exit 1
}

says() { grep -qF -- "$2" "$work/$1"; }
silent() { [ ! -s "$work/err" ]; }
calls() { [ "$(grep -c . "$KEPT/calls")" = "$1" ]; }
is() { [ "$1" = "$2" ]; }
ended() { [ "$status" = "$1" ]; }
gone() { ! kill -0 "$1"; }

# Runs a command, and has its two streams in files and its status.
run() {
  "$@" >"$work/out" 2>"$work/err" </dev/null
  status=$?
}

until_true() {
  for _ in $(seq 100); do
    "$@" >/dev/null 2>&1 && return
    sleep 0.1
  done
  expect "$@"
}

# A checkout of three crates of the program and one other, with the real scripts.
checkout() {
  local crate
  mkdir -p "$1"
  cp "$top/knox" "$top/knox-try" "$1"
  echo "Handles allowed: none." >"$1/HANDLES"
  printf 'low:\nmiddle: low smallvec\nknox: middle # the program\nother: low\n' >"$1/crates.txt"
  for crate in low middle knox other; do
    mkdir -p "$1/crates/$crate/src" "$1/crates/$crate/must-fail" "$1/crates/$crate/out"
    echo "$crate-1" >"$1/crates/$crate/src/lib.rt"
    echo "an edit" >"$1/crates/$crate/must-fail/wrong.edit"
  done
  echo "more" >"$1/crates/low/src/more.rt"
}

first_use() {
  run "$at/knox" verify "a b" "" '*'
  expect ended 7
  expect says out "program of knox-1 low-1 more middle-1"
  expect is "$(tail -n 4 "$work/out" | tr '\n' ' ')" "<verify> <a b> <> <*> "
  expect says err "proves its 3 crates: about half an hour"
  expect says err "Log: $at/.build/log"
  expect says err "1 of 3 crates, 0 min: low is proved"
  expect says err "3 of 3 crates, 0 min: knox is proved"
  expect says log_of_build "rt: middle proved"
  expect calls 1
}

second_use() {
  run "$at/knox"
  before="$(find "$at" -printf '%p %c\n' | sort)"
  PATH=/usr/bin:/bin run "$at/knox" check
  expect ended 7
  expect silent
  expect calls 1
  expect is "$before" "$(find "$at" -printf '%p %c\n' | sort)"
}

nothing_beside_build() {
  before="$(find "$at" -path "$at/.build" -prune -o -type f -printf '%p %c\n' | sort)"
  run "$at/knox"
  expect is "$before" "$(find "$at" -path "$at/.build" -prune -o -type f -printf '%p %c\n' | sort)"
  expect is "$(find "$at/.build" -name '*.rt' -o -name crates.txt)" ""
  expect is "$(ls "$TMPDIR")" ""
}

touched_source() {
  run "$at/knox"
  find "$at/crates" -exec touch {} +
  run "$at/knox"
  expect silent
  expect calls 1
}

changed_source() {
  run "$at/knox"
  echo changed >"$at/crates/low/src/lib.rt"
  run "$at/knox"
  expect says out "program of knox-1 changed more middle-1"
  expect says err "middle was proved earlier"
  expect calls 2
}

old_time() {
  run "$at/knox"
  echo changed >"$at/crates/middle/src/lib.rt"
  touch -d 2001-01-01 "$at/crates/middle/src/lib.rt"
  run "$at/knox"
  expect says out "program of knox-1 low-1 more changed"
}

deleted_source() {
  run "$at/knox"
  rm "$at/crates/low/src/more.rt"
  run "$at/knox"
  expect says out "program of knox-1 low-1 middle-1"
}

new_source() {
  run "$at/knox"
  mkdir "$at/crates/low/proofs"
  echo lemma >"$at/crates/low/proofs/new.antt"
  run "$at/knox"
  expect calls 2
}

renamed_source() {
  run "$at/knox"
  mv "$at/crates/low/src/more.rt" "$at/crates/low/src/most.rt"
  run "$at/knox"
  expect calls 2
}

changed_handles() {
  run "$at/knox"
  echo "Handles allowed: Net." >"$at/HANDLES"
  run "$at/knox"
  expect calls 2
}

changed_uses() {
  run "$at/knox"
  sed -i 's/^low:/low: other/; s/^other: low/other:/' "$at/crates.txt"
  run "$at/knox"
  expect says out "other-1"
}

changed_line() {
  run "$at/knox"
  sed -i 's/^knox: middle/knox: low middle/' "$at/crates.txt"
  run "$at/knox"
  expect calls 2
}

linked_source() {
  run "$at/knox"
  ln -s lib.rt "$at/crates/low/src/link.rt"
  run "$at/knox"
  expect calls 2
}

other_crate() {
  run "$at/knox"
  echo changed >"$at/crates/other/src/lib.rt"
  echo changed >"$at/crates/knox/must-fail/wrong.edit"
  run "$at/knox"
  expect calls 1
}

source_that_comes_back() {
  run "$at/knox"
  echo changed >"$at/crates/low/src/lib.rt"
  run "$at/knox"
  echo low-1 >"$at/crates/low/src/lib.rt"
  run "$at/knox"
  expect says out "program of knox-1 low-1"
  expect calls 2
}

source_that_changes_meanwhile() {
  STAND_IN=edits EDIT="echo changed >'$at/crates/low/src/lib.rt'" run "$at/knox"
  expect ended 7
  expect says out "program of knox-1 changed more middle-1"
  expect calls 2
}

failed_build() {
  run "$at/knox"
  echo changed >"$at/crates/knox/src/lib.rt"
  for how in fails leaves makes-none; do
    STAND_IN=$how run "$at/knox"
    expect ended 70
    expect says err "the whole log is $at/.build/log"
    expect is "$(cat "$work/out")" ""
    [ $how = makes-none ] || expect says err "error: cannot prove this"
    [ $how = makes-none ] || expect says err "knox: knox NOT PROVED"
  done
  expect is "$(ls "$TMPDIR")" ""
  run "$at/knox"
  expect says out "program of changed"
}

no_rt() {
  PATH=/usr/bin:/bin run "$at/knox"
  expect ended 70
  expect says err "the command rt isn't on the path"
}

lost_source() {
  run "$at/knox"
  rm -r "$at/crates"
  run "$at/knox"
  expect ended 70
  expect is "$(cat "$work/out")" ""
}

waiting_call() {
  STAND_IN=slow "$at/knox" >"$work/first" 2>&1 </dev/null &
  first=$!
  until_true test -f "$KEPT/running"
  "$at/knox" >"$work/out" 2>"$work/err" </dev/null &
  second=$!
  until_true says err "another call is building the program; waiting for it. Its log: $at/.build/log"
  until_true says first "low: another run on this machine is proving the same; waiting for it"
  for _ in 1 2 3; do
    touch "$KEPT/go"
    until_true test ! -f "$KEPT/go"
  done
  wait "$first"
  expect is $? 7
  wait "$second"
  expect is $? 7
  expect says out "program of knox-1"
  expect calls 1
}

# A signal in mid-build: $1 to the script alone, or to all that run in the terminal.
interrupted_by() {
  : >"$work/err"
  rm -f "$KEPT/running"
  STAND_IN=slow setsid bash -c 'trap - INT; echo $$ >"$1"; exec "$2" 2>"$3"' - "$work/pid" "$at/knox" "$work/err" </dev/null >"$work/out" &
  first=$!
  until_true test -s "$KEPT/running"
  touch "$KEPT/go"
  until_true says err "1 of 3 crates, 0 min: low is proved"
  pid="$(cat "$work/pid")"
  kill "-$1" $([ "$2" = group ] && echo "--  -$pid" || echo "$pid")
  wait "$first" 2>/dev/null
  status=$?
}

ctrl_c() {
  # (a shell's background command would ignore the signal, so a terminal's is asked for)
  run python3 -c '
import os, pty, sys, time
pid, terminal = pty.fork()
if not pid:
    os.execve(sys.argv[1], sys.argv[1:2], {**os.environ, "STAND_IN": "slow"})
said = b""
while b"1 of 3 crates" not in said:
    if b"half an hour" in said and not os.path.exists(os.environ["KEPT"] + "/began"):
        open(os.environ["KEPT"] + "/began", "w")
        open(os.environ["KEPT"] + "/go", "w")
    said += os.read(terminal, 1000)
os.write(terminal, b"\x03")
try:
    while True:
        more = os.read(terminal, 1000)
        if not more:
            break
        said += more
except OSError:
    pass
sys.stdout.write(said.decode())
status = os.waitpid(pid, 0)[1]
sys.exit(os.waitstatus_to_exitcode(status))
' "$at/knox"
  expect ended 130
  expect says out "stopped. Each crate that was proved is kept"
  expect gone "$(cat "$KEPT/running")"
  expect is "$(ls "$TMPDIR")" ""
  run "$at/knox"
  expect ended 7
  expect says err "1 of 3 crates, 0 min: low was proved earlier"
  expect says err "2 of 3 crates, 0 min: middle is proved"
}

terminated() {
  interrupted_by TERM
  expect ended 143
  expect says err "stopped. Each crate that was proved is kept"
  until_true gone "$(cat "$KEPT/running")"
  expect is "$(ls "$TMPDIR")" ""
  run "$at/knox"
  expect ended 7
}

killed() {
  interrupted_by KILL group
  expect ended 137
  run "$at/knox"
  expect ended 7
  expect says err "low was proved earlier"
}

ways_to_call() {
  mkdir "$work/a place" "$work/bin"
  ln -s "$at/knox" "$work/bin/knox"
  ln -s "$work/bin/knox" "$work/bin/again"
  cd "$work/a place" || exit
  run ../bin/again verify
  expect says out "program of knox-1"
  PATH="$work/bin:$PATH" run knox verify
  expect says out "<verify>"
  expect silent
  cd "$at/crates" || exit
  run ../knox verify
  expect silent
  expect calls 1
}

# The user nobody, where root runs the test: nothing keeps root from writing.
as_nobody() {
  if [ "$(id -u)" = 0 ]; then
    chown -R 65534:65534 "$KEPT" "$TMPDIR" "$work/build"
    run setpriv --reuid=65534 --regid=65534 --clear-groups "$@"
  else
    run "$@"
  fi
}

read_only() {
  chmod -R a-w "$at"
  mkdir "$work/build"
  as_nobody "$at/knox"
  expect ended 70
  expect says err "set KNOX_BUILD to another folder"
  KNOX_BUILD="$work/build" as_nobody "$at/knox"
  expect ended 7
  expect says out "program of knox-1"
  expect is "$(ls "$TMPDIR")" ""
  KNOX_BUILD="$work/build" as_nobody "$at/knox"
  expect silent
  chmod -R u+w "$at"
}

one_folder_for_two_checkouts() {
  checkout "$work/second"
  echo changed >"$work/second/crates/low/src/lib.rt"
  find "$work/second" -exec touch -d 2001-01-01 {} +
  KNOX_BUILD="$work/build" run "$work/second/knox"
  KNOX_BUILD="$work/build" run "$at/knox"
  expect says out "program of knox-1 low-1"
  KNOX_BUILD="$work/build" run "$work/second/knox"
  expect says out "program of knox-1 changed"
  expect calls 2
}

folder_of_builds_is_a_file() {
  touch "$at/.build"
  run "$at/knox"
  expect ended 70
}

try_words() {
  mkdir "$work/sub"
  echo text-of-c >"$work/sub/c.btor2"
  echo text-of-s >"$work/s"
  cd "$work/sub" || exit
  run "$at/knox-try" verify c.btor2 ../s "$work/s" none <(echo text-of-h) budget 8
  expect ended 3
  expect is "$(sed -n '/^<-->/,/^<8>/p' "$work/out" | tr -d '\n')" "<--><verify><c.btor2><of-word-2><of-word-3><none><of-word-5><budget><8>"
  expect says out "<c.btor2=$work/sub/c.btor2>"
  expect is "$(grep -c ^text-of-s "$work/out")" 2
  expect says out text-of-c
  expect says out text-of-h
  expect is "$(ls "$TMPDIR")" ""
}

try_warns() {
  run "$at/knox-try"
  expect ended 3
  expect is "$(head -n 1 "$work/err")" "$(tail -n 1 "$work/err")"
  expect is "$(grep -c "its yes is no theorem" "$work/err")" 2
  expect says err "a line of the program's"
  expect is "$(grep -c "proved=no" "$work/err")" 0
  expect is "$(grep -c theorem "$work/out")" 0
}

try_without_answer() {
  STAND_IN=fails run "$at/knox-try" verify
  expect ended 70
  expect says err "error: no such thing"
  expect is "$(grep -c "its yes is no theorem" "$work/err")" 2
  PATH=/usr/bin:/bin run "$at/knox-try" verify
  expect ended 70
}

# Each script of bench/, over a copy of the checkout's scripts, must write nothing there.
bench_is_guarded() {
  mkdir "$work/top"
  cp -r "$top/bench" "$top/knox" "$top/crates.txt" "$work/top"
  mkdir "$work/top/crates" "$work/full" "$work/link"
  echo mine >"$work/full/mine"
  touch "$work/.made-by-knox"
  ln -s "$work/top" "$work/link/top"
  before="$(find "$work/top" "$work/full" -printf '%p %s %c\n' | sort)"
  for script in "$work"/top/bench/*/*.sh; do
    cd "$work/top" || exit
    # (the folder above has a mark as if of an earlier run)
    for given in "" . new bench/new crates "$work/link/top/new" .. / "$work/full" "$work/full/mine"; do
      run sh "$script" $given
      expect ended 2
      expect is "$(cat "$work/out")" ""
    done
    run sh "$script"
    expect says err "Needs "
    ln -sf "$(command -v dirname)" "$(command -v readlink)" "$(command -v ls)" "$work/few/"
    PATH="$work/few" run /bin/sh "$script" "$work/skipped"
    expect ended 77
    expect says out "skipped: no "
    expect test ! -e "$work/skipped"
  done
  expect is "$before" "$(find "$work/top" "$work/full" -printf '%p %s %c\n' | sort)"
}

cases="first_use second_use nothing_beside_build touched_source changed_source old_time deleted_source new_source renamed_source
  changed_handles changed_uses changed_line linked_source other_crate source_that_comes_back source_that_changes_meanwhile failed_build no_rt lost_source
  waiting_call ctrl_c terminated killed ways_to_call read_only one_folder_for_two_checkouts folder_of_builds_is_a_file
  try_words try_warns try_without_answer bench_is_guarded"
shift
[ $# = 0 ] || cases="$*"
chmod 755 "$folder"
for case in $cases; do
  work="$folder/$case"
  chmod -R u+w "$work" 2>/dev/null
  rm -rf "$work"
  mkdir -p "$work/kept" "$work/tmp" "$work/few"
  if (
    export KEPT="$work/kept" TMPDIR="$work/tmp" PATH="$here:$PATH"
    unset KNOX_BUILD STAND_IN
    at="$work/checkout"
    checkout "$at"
    ln -s "$at/.build/log" "$work/log_of_build"
    "$case"
  ); then
    echo "ok: $case"
  else
    echo "FAILED: $case"
    failed=$((failed + 1))
  fi
done
echo "$(echo $cases | wc -w) cases, $failed failed"
[ "$failed" = 0 ]
