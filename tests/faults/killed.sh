#!/usr/bin/env bash
# Kills `join`, `mail`, `close` and `upgrade` in turn at random moments, and checks each time that the file holds the campaign from before
# the command or from after it: by `report`, by the rows of all tables, and by `PRAGMA integrity_check`. Before that, sqlite3 alone checks the same
# on a copy of what the kill left. Where strace is there, each command is then killed at each system call that it makes, and each of its
# calls on files is made to fail, once with a fault of the disk and once with a full disk. Called as
#   tests/faults/killed.sh [KILLS]
# with 200 kills where none is said, it takes one to four minutes once the program is built, wants sqlite3, and ends with what was found. A command that
# had ended before its moment counts as no kill.
set -u
here=$(cd "$(dirname "$0")/../.." && pwd)
kills=${1:-200}
command -v sqlite3 >/dev/null || { echo 'killed: sqlite3 is not there' >&2; exit 2; }
work=$(mktemp -d)
trap 'rm -rf "$work"' EXIT
db=$work/campaign.db
mailing=$work/mailing
"$here/gm" found --world "$here/worlds/isle.toml" --db "$db" --pass gm >/dev/null || exit 1
program=$("$here/gm" path)
"$program" join --db "$db" --name Avalon --pass pw --seed 0 >/dev/null || exit 1
first=$work/first.db
cp "$db" "$first"
# an old file, which each upgrade begins with, and a world for it
old=$here/tests/old/trial.db upgrade=(upgrade --world "$here/worlds/small.toml")
round=0 killed=0 before=0 after=0 logs=0 factions=1

fail() {
  echo "killed: $1, in round $round: ${command[*]}" >&2
  exit 1
}

# rows FILE: all that sqlite3 finds in the database
rows() {
  sqlite3 "$1" .dump
}

# one_of_both FILE: whether the database is sound, and its rows, which are kept as `found`, are those before the command or those after it
one_of_both() {
  [ "$(sqlite3 "$1" 'PRAGMA integrity_check')" = ok ] || return 1
  found=$(rows "$1")
  [ "$found" = "$rows_before" ] || [ "$found" = "$rows_after" ]
}

# copied FILE: a copy of a database and of its log, if it has one, as left.db
copied() {
  rm -f "$work/left.db" "$work/left.db-wal" "$work/left.db-shm"
  cp "$1" "$work/left.db"
  [ ! -e "$1-wal" ] || cp "$1-wal" "$work/left.db-wal"
}

# month_of FILE: the month last closed in a database
month_of() {
  copied "$1"
  sqlite3 "$work/left.db" 'SELECT month FROM campaign'
}

# tell_ends FILE: the rows before and after the command, by way of a copy of the file, which is closed
tell_ends() {
  cp "$1" "$work/whole.db" && rm -f "$work/whole.db-wal"
  rows_before=$(rows "$work/whole.db")
  "$program" "${command[@]}" --db "$work/whole.db" >/dev/null || fail 'the command is refused'
  rows_after=$(rows "$work/whole.db")
  [ "$rows_before" != "$rows_after" ] || fail 'the command changes nothing'
}

# is_reported FILE: whether the first faction gets its report, or is told of an old file that it is one
is_reported() {
  "$program" report --db "$1" --faction 1 --pass pw >"$work/report" 2>"$work/refusal"
  if [ "${command[0]}" = upgrade ] && [ "$found" = "$rows_before" ]; then
    [ "$(cat "$work/refusal")" = 'fault: OldFormat' ]
  else
    head -n 1 "$work/report" | grep -qx 'Atlantis report, month [0-9]*, faction 1 "Avalon".'
  fi
}

# judge FILE: what a command left that did not come to its end. The log is in the file then.
judge() {
  copied "$1"
  one_of_both "$work/left.db" || fail 'sqlite3 finds another campaign'
  is_reported "$1" || fail 'there is another report, or none'
  rm -f "$1-wal"
  copied "$1"
  one_of_both "$work/left.db" || fail 'the program leaves another campaign'
}

# now: the time in microseconds
now() {
  echo $((${EPOCHREALTIME/[.,]/}))
}

# Random moments. The campaign goes on from what each kill left; an upgrade begins with the old file.
while ((killed < kills)); do
  round=$((round + 1))
  file=$db
  case $((round % 4)) in
    1) command=(join --name "Faction $round" --pass pw --seed "$round") ;;
    2)
      printf '#ATLANTIS 1\nUNIT 1\nWORK ; round %s\n' "$round" >"$mailing"
      command=(mail --faction 1 --pass pw --file "$mailing")
      ;;
    3) command=(close --month $(($(month_of "$db") + 1)) --pass gm --seed "$round") ;;
    0)
      command=("${upgrade[@]}")
      file=$work/old.db
      cp "$old" "$file" && rm -f "$file-wal"
      ;;
  esac
  tell_ends "$file"
  cp "$file" "$work/timed.db" && rm -f "$work/timed.db-wal"
  begin=$(now)
  "$program" "${command[@]}" --db "$work/timed.db" >/dev/null
  moment=$(((RANDOM * 32768 + RANDOM) % ($(now) - begin)))
  "$program" "${command[@]}" --db "$file" >/dev/null 2>&1 &
  process=$!
  sleep "$(printf '%d.%06d' $((moment / 1000000)) $((moment % 1000000)))"
  kill -KILL "$process" 2>/dev/null
  wait "$process" 2>/dev/null || killed=$((killed + 1))
  [ ! -e "$file-wal" ] || [ "$(stat -c %s "$file-wal")" -le 41 ] || logs=$((logs + 1))
  judge "$file"
  if [ "$found" = "$rows_after" ]; then
    after=$((after + 1))
    [ "${command[0]}" = join ] && factions=$((factions + 1))
  else
    before=$((before + 1))
  fi
  "$program" report --db "$db" --faction "$factions" --pass pw >/dev/null || fail 'a faction is lost'
  "$program" report --db "$db" --faction $((factions + 1)) --pass pw >/dev/null 2>"$work/refusal"
  [ "$(cat "$work/refusal")" = 'refused: 5 NoFaction' ] || fail 'a faction is there in part'
done
echo "killed: $killed of $round commands, the others had ended; $logs left a log; $before campaigns as before, $after as after, no other"

# injected WHAT CALL NUMBER: the command on a copy of `first`, where this call is killed or fails
injected() {
  cp "$first" "$work/stopped.db" && rm -f "$work/stopped.db-wal"
  strace -f -o "$work/injected" -e "inject=$2:$1:when=$3" "$program" "${command[@]}" --db "$work/stopped.db" >/dev/null 2>&1
}

# stop_each WHAT CALL..: kills the command at each of these calls, or has each fail
stop_each() {
  local what=$1 call number count
  before=0 after=0
  for call in "${@:2}"; do
    count=$(grep -c "^[0-9]* *$call(" "$work/trace")
    for ((number = 1; number <= count; number++)); do
      { injected "$what" "$call" "$number"; } 2>/dev/null
      local status=$?
      judge "$work/stopped.db"
      if [ "$found" = "$rows_after" ]; then
        after=$((after + 1))
      else
        before=$((before + 1))
        [ "$status" != 0 ] || fail "a command is told as done and is not, with $what at call $number of $call"
      fi
    done
  done
  echo "killed: ${command[0]} with $what at each call: $before campaigns as before, $after as after, no other"
}

if command -v strace >/dev/null; then
  printf '#ATLANTIS 1\nUNIT 1\nTAX\n' >"$mailing"
  for name in join mail close upgrade; do
    case $name in
      join) command=(join --name Last --pass pw --seed 1) ;;
      mail) command=(mail --faction 1 --pass pw --file "$mailing") ;;
      close)
        "$program" mail --db "$first" --faction 1 --pass pw --file "$mailing" >/dev/null || exit 1
        command=(close --month 1 --pass gm --seed 1)
        ;;
      upgrade)
        command=("${upgrade[@]}")
        first=$old
        ;;
    esac
    tell_ends "$first"
    cp "$first" "$work/traced.db" && rm -f "$work/traced.db-wal"
    strace -f -o "$work/trace" "$program" "${command[@]}" --db "$work/traced.db" >/dev/null
    mapfile -t calls < <(sed -n 's/^[0-9]* *\([a-z_0-9]*\)(.*/\1/p' "$work/trace" | grep -v '^exit' | sort -u)
    stop_each signal=KILL "${calls[@]}"
    stop_each error=EIO pread64 pwrite64 fdatasync fsync ftruncate
    stop_each error=ENOSPC pwrite64 fdatasync fsync ftruncate
  done
else
  echo 'killed: strace is not there, so no call was stopped by itself'
fi
