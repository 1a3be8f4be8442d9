#!/usr/bin/env bash
# Refuses requests for memory, one at a time, and checks each time that the answer is Memory and nothing has changed, or that the outcome is
# that of enough memory; and that Memory is never the answer if none was refused. This is done within one process, for the calls
# that crates/atl_memory_tests tries, and for the subcommands of the program, each on a copy of a file. The heap that refuses is
# tests/faults/fuse.c, which is put before the C library's. Called as
#   tests/faults/memory.sh [STEP [PROGRAM_STEP]]
# it refuses every STEP-th growth of the calls (1 where none is said) and every PROGRAM_STEP-th of the subcommands (97), each up to a run
# without a refusal. Of a joining over HTTP it refuses ten times as many growths, from about where `serve` takes its port on. It wants cc,
# glibc, curl and sqlite3, takes about two minutes once the program of calls is built, and ends with 'memory: all as expected'. Without the kit, which
# builds that program, the calls are passed over, and the status is 77.
set -u
here=$(cd "$(dirname "$0")/../.." && pwd)
step=${1:-1} program_step=${2:-97}
[[ $step =~ ^[1-9][0-9]*$ && $program_step =~ ^[1-9][0-9]*$ ]] || { echo 'memory: a step is a number from 1' >&2; exit 2; }
for tool in cc curl sqlite3 python3; do
  command -v "$tool" >/dev/null || { echo "memory: $tool is not there" >&2; exit 2; }
done
work=$(mktemp -d)
trap 'rm -rf "$work"' EXIT
failed=0 growths=1 code=

fail() {
  echo "memory: $*"
  failed=1
}

heap=$work/fuse.so
cc -O2 -fPIC -shared -o "$heap" "$here/tests/faults/fuse.c" || exit 2
db=$work/campaign.db
"$here/gm" found --world "$here/worlds/isle.toml" --db "$db" --pass gm >/dev/null || exit 1
program=$("$here/gm" path)
calls=$here/crates/atl_memory_tests/out/atl_memory_tests
# the sources that the program of calls is made of: those of no other crate of tests
newer() {
  find "$here/crates/atl_memory_tests/src" -newer "$calls"
  find "$here"/crates/*/src -newer "$calls" ! -path '*_tests/*'
}

# build_calls: builds the program of calls where it is not there, or a source is newer. Status 77: it can't be built without the kit.
build_calls() {
  [ ! -x "$calls" ] || [ -n "$(newer)" ] || return 0
  command -v rt >/dev/null || return 77
  (cd "$here/crates/atl_test_worlds" && rt lib) >"$work/built" 2>&1
  (cd "$here/crates/atl_memory_tests" && rt run) >>"$work/built" 2>&1 || { tail -n 20 "$work/built" >&2; return 1; }
  touch "$calls"
}

# The calls. Each has a line for its droughts, as the gate stores it, and one for its refusals.
try_calls() {
  local names name
  "$calls" >"$work/droughts" || fail 'the calls end with another status'
  cmp -s "$work/droughts" "$here/crates/atl_memory_tests/stdout" || fail 'another outcome in a drought'
  LD_PRELOAD=$heap "$calls" "$step" >"$work/told" || fail 'the calls end with another status under the heap that counts'
  mapfile -t names < <(sed 's/:.*//' "$here/crates/atl_memory_tests/stdout")
  for name in "${names[@]}"; do
    grep -q "^$name: [0-9]* growths refused, [0-9]* made good, " "$work/told" || fail "$name: another outcome with a refusal"
  done
  [ "$(wc -l <"$work/told")" = $((2 * ${#names[@]})) ] || fail 'another number of lines'
  tail -n +$((${#names[@]} + 1)) "$work/told"
}

build_calls
passed_over=$?
case $passed_over in
  0) try_calls ;;
  77) ;;
  *) exit 1 ;;
esac

# rows FILE: what the database holds, or nothing where there is no file
rows() {
  [ ! -e "$1" ] || sqlite3 "$1" .dump
}

# copied FILE: a copy of the file, as run.db, or none where it isn't there
copied() {
  rm -f "$work"/run.db*
  [ ! -e "$1" ] || cp "$1" "$work/run.db"
}

# each FILE INPUT WORD..: every so many-th growth of a subcommand on a copy of the file. The first one that never comes is in `growths`.
each() {
  local file=$1 input=$2 refused=0 good=0 growth status before after
  shift 2
  copied "$file"
  before=$(rows "$file")
  "$program" "$@" <"$input" >"$work/wanted" || fail "$1 is refused"
  after=$(rows "$work/run.db")
  for ((growth = 1; ; growth += program_step)); do
    copied "$file"
    rm -f "$work/blown"
    FUSE=$growth FUSE_LOG=$work/blown LD_PRELOAD=$heap "$program" "$@" <"$input" >"$work/out" 2>"$work/err"
    status=$?
    [ ! -e "$work/blown" ] || refused=$((refused + 1))
    if [ "$status" = 0 ]; then
      [ ! -e "$work/blown" ] || good=$((good + 1))
      [ ! -s "$work/err" ] && cmp -s "$work/out" "$work/wanted" && [ "$(rows "$work/run.db")" = "$after" ] ||
        fail "$1, growth $growth: not the outcome of ample memory"
    elif [ ! -e "$work/blown" ] || [ "$status" != 1 ] || [ -s "$work/out" ] || [ "$(cat "$work/err")" != 'fault: Memory' ]; then
      fail "$1, growth $growth: status $status, $(head -c 80 "$work/err")"
    elif [ -n "$before" ] && [ "$(rows "$work/run.db")" != "$before" ]; then
      fail "$1, growth $growth: the rows changed"
    elif [ -z "$before" ] && [ -n "$(rows "$work/run.db" | grep '^CREATE')" ]; then
      fail "$1, growth $growth: there are tables"
    fi
    [ -e "$work/blown" ] || break
  done
  growths=$growth
  echo "$1: $refused growths refused, $good made good, and growth $growth never comes"
}

# join_by_http GROWTH: serves one joining on a copy of the file, where this growth is refused. The status of the reply, or 000 where there is none, is in
# `code`, its body in out, and what the program said in err.
join_by_http() {
  local port server
  port=$(python3 "$here/tests/tools/ports.py")
  copied "$db"
  rm -f "$work/blown" "$work/out"
  FUSE=$1 FUSE_LOG=$work/blown LD_PRELOAD=$heap "$program" serve --db "$work/run.db" --port "$port" --count 1 --seed 0 >/dev/null 2>"$work/err" &
  server=$!
  # 7: it doesn't listen yet, or not any more
  until code=$(curl -s --max-time 20 -o "$work/out" -w '%{http_code}' -d '{"name":"Bree","pass":"pb"}' "http://127.0.0.1:$port/join"); do
    [ $? = 7 ] && kill -0 "$server" 2>/dev/null || break
  done
  wait "$server"
}

# each_of_http FIRST: growths of such a joining, from this one on. A reply says what was done; without one the command may have been run.
each_of_http() {
  local growth after refused=0 told=0 silent=0 before
  before=$(rows "$db")
  join_by_http 0
  after=$(rows "$work/run.db")
  [ "$code $(cat "$work/out")" = '200 {"faction":2,"unit":2}' ] || fail "a joining over HTTP: $code, $(head -c 80 "$work/out")"
  for ((growth = $1; ; growth += (program_step + 9) / 10)); do
    join_by_http "$growth"
    [ -e "$work/blown" ] || break
    refused=$((refused + 1))
    case $code in
      200) [ "$(cat "$work/out")" = '{"faction":2,"unit":2}' ] && [ "$(rows "$work/run.db")" = "$after" ] ;;
      500) told=$((told + 1)) && [ "$(cat "$work/out")" = '{"error":"Memory","number":0}' ] && [ "$(rows "$work/run.db")" = "$before" ] ;;
      000)
        silent=$((silent + 1))
        [ "$(cat "$work/err")" = 'fault: Memory' ] && { [ "$(rows "$work/run.db")" = "$before" ] || [ "$(rows "$work/run.db")" = "$after" ]; }
        ;;
      *) false ;;
    esac || fail "a joining over HTTP, growth $growth: $code, $(head -c 80 "$work/out" "$work/err")"
  done
  [ "$told" != 0 ] || fail 'a joining over HTTP: no growth was answered 500 Memory'
  echo "a joining over HTTP: $refused growths refused, $told of them answered 500 Memory and $silent not at all, and growth $growth never comes"
}

mailing=$work/mailing
printf '#ATLANTIS 1\nUNIT 1\nNAME UNIT Watch\nFORM 1\nEND\nPAY NEW 1 100\nGUARD 1\nDANCE\nSTUDY lumberjack\n' >"$mailing"
"$program" join --db "$db" --name Avalon --pass pw --seed 0 >/dev/null || exit 1
"$program" mail --db "$db" --faction 1 --pass pw --file "$mailing" >/dev/null || exit 1
run=$work/run.db
each "$work/none" "$here/worlds/isle.toml" trial
each "$work/none" /dev/null found --world "$here/worlds/isle.toml" --db "$run" --pass gm
each "$db" /dev/null join --db "$run" --name Bree --pass pb --seed 0
each "$db" /dev/null mail --db "$run" --faction 1 --pass pw --file "$mailing"
each "$db" /dev/null close --db "$run" --month 1 --pass gm --seed 0
each "$db" /dev/null report --db "$run" --faction 1 --pass pw
each "$db" /dev/null books --db "$run"
each "$here/tests/old/trial.db" /dev/null upgrade --db "$run" --world "$here/worlds/small.toml"
each "$db" /dev/null serve --db "$run" --port 0 --count 0 --seed 0
each_of_http "$growths"

[ $failed = 0 ] || exit $failed
if [ $passed_over = 77 ]; then
  echo 'the subcommands of the program are as expected; the calls of atl_memory_tests were not tried, since building them needs the Rattle kit (rt)'
else
  echo 'memory: all as expected'
fi
exit $passed_over
