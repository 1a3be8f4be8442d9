#!/usr/bin/env bash
# Plays what docs/QUICKSTART.md, TUTORIAL.md, PLAYER.md, MODERATOR.md, SERVER.md and WORLDS.md and README.md show, and
# compares what the program prints with what the page says. Each page is played from its top to its end, in a folder of
# its own with the worlds and the examples in it. Called without arguments, or with some of the pages, it ends with
# 'pages: all as printed'. A block between fences is played if its first fence has one of these words, and passed over if
# it has another or none:
#   campaign W SEED  a new campaign begins, with the world file W and this seed; the block is the answer
#   join NAME PASS   a faction joins, whose pass text is PASS; the block is the answer
#   mailing F        the block is mailed for faction F
#   answer F         the block is the answer to the mailing that was sent last
#   reply F          the block is the office's reply to that mailing, where it comes by mail
#   month N          month N is closed; the block is the answer
#   report F         the block is the report of faction F
#   lines F          the block is some lines of the report of faction F, in their order
#   file NAME        the block is the file of that name
#   console          a line that begins with '$ ' is a command, which a backslash at its end carries on in the next
#                    line; the lines after it are what it prints
#   console http     the same, with curl over port 8080, in the place of which another port is taken
#   console sqlite3  the same, with sqlite3
#   console TIME     the same; from here on the clock of kiwirudder shows this time, as 2026-01-09T20:30
# A folder of the page that is printed with its whole path is /home/gm/club on the page. The moderator's pass text is
# 'moderator'. TUTORIAL.md and README.md begin with a campaign of worlds/isle.toml and the seed 3, and QUICKSTART.md with
# one of worlds/coast.toml and the seed 41. In those of README.md and QUICKSTART.md Avalon has joined. A page that shows a
# report after a mailing, and not that the month is closed, has it closed before the report. SERVER.md begins with the
# club of MODERATOR.md, which three factions have joined. Without curl or sqlite3 a page is played up to the block that
# needs it. The program is $GM, or else the gm of this repository.
set -u
here=$(cd "$(dirname "$0")/../.." && pwd)
work=$(mktemp -d)
trap 'rm -rf "$work"' EXIT
port=$(python3 "$here/tests/tools/ports.py")
block=$work/block printed=$work/printed answer=$work/answer
failed=0

# command_of NAME WORD..: makes a command of this name for the pages, which is these words with more after them
command_of() {
  mkdir -p "$work/bin"
  printf '#!/bin/sh\nexec %s "$@"\n' "$(printf '%q ' "${@:2}")" >"$work/bin/$1"
  chmod +x "$work/bin/$1"
}
command_of gm "${GM:-$here/gm}"
command_of kiwirudder "$here/kiwirudder"
export TZ=UTC KIWIRUDDER_NOW=2026-01-05T19:00
for script in "$here"/examples/*.sh; do
  command_of "${script##*/}" "$script"
done
command_of curl "$(command -v curl)" -s --retry 20 --retry-connrefused --retry-delay 1
has_curl=$(command -v curl) has_sqlite3=$(command -v sqlite3)
PATH=$work/bin:$PATH

# stop REASON..: ends the play of the page at the block that is played
stop() {
  echo "$page, line $begin: $*"
  exit 1
}

# same FILE: the file is as the block says
same() {
  cmp -s "$block" "$1" || stop "the program prints something else:"$'\n'"$(diff "$block" "$1")"
}

# run WORD..: a command of the campaign of the page, which succeeds, and what it prints
run() {
  gm "$1" --db club.db "${@:2}" >"$printed" 2>&1 || stop "status $? and $(cat "$printed")"
}

campaign() {
  rm -f club.db*
  run found --world "$1" --pass moderator
  seed=$2 passes=(none) closed=0 waits=
}

join() {
  run join --name "$1" --pass "$2" --seed "$seed"
  passes+=("$2")
}

mailing() {
  cp "$block" mailing.txt
  run mail --faction "$1" --pass "${passes[$1]}" --file mailing.txt
  cp "$printed" "$answer"
  waits=1
}

# reply FACTION: the campaign of the page comes under the office, which takes the mailing again
reply() {
  echo moderator >pass && echo "$seed" >seed
  kiwirudder init . --moderator gm@example.org >init.log && kiwirudder address "$1" player@example.org >address.log
  cp mailing.txt "mail/in/$1.txt" && kiwirudder take >take.log
  sed '1,/^$/d' out/reply-*-"$1".eml
}

month() {
  run close --month "$1" --pass moderator --seed "$seed"
  closed=$1 waits=
}

# report FACTION: the report of the last month, which is closed now if a mailing still waits
report() {
  [ -z "$waits" ] || month $((closed + 1))
  run report --faction "$1" --pass "${passes[$1]}"
}

# has_lines: each line of the block is in what was printed, in the order of the block
has_lines() {
  diff -d "$block" "$printed" | grep -q '^<' && stop "the report hasn't these lines, in this order:"$'\n'"$(cat "$printed")"
  return 0
}

# status_before: the status of the command of the session that was run last, so that the next one finds it as $?
status_before() {
  return "$told"
}

# session: the commands of the block, all in the shell of the page, each with what it prints
session() {
  local line text= told=0 output
  while IFS= read -r line <&3; do
    [ -n "$text" ] || [ "${line:0:2}" = '$ ' ] || continue
    printf '%s\n' "$line"
    text+=$line$'\n'
    [ "${line: -1}" != \\ ] || continue
    output=$(mktemp -p "$work")
    status_before
    eval "${text:2}" >"$output" 2>&1 </dev/null 3<&- 4<&-
    told=$?
    sed "s|$work|/home/gm|g" "$output"
    text=
  done 3<"$block"
}

# console TOOL: plays the block where the tool is there, and else ends the play of the page
console() {
  case ${1:-} in
    http) [ -n "$has_curl" ] || pass_over curl ;;
    sqlite3) [ -n "$has_sqlite3" ] || pass_over sqlite3 ;;
    2*) KIWIRUDDER_NOW=$1 ;;
  esac
  [ "${1:-}" != http ] || sed -i "s/8080/$port/g" "$block"
  session >"$printed"
  same "$printed"
}

pass_over() {
  echo "pages: without $1 the rest of $page, from line $begin on, was passed over"
  exit 0
}

# play WORD..: the block, by the words of its first fence
play() {
  played=$((played + 1))
  case ${1:-} in
    campaign) campaign "$2" "$3" && same "$printed" ;;
    join) join "$2" "$3" && same "$printed" ;;
    mailing) mailing "$2" ;;
    answer) same "$answer" ;;
    reply) reply "$2" >"$printed" 2>&1 && same "$printed" ;;
    month) month "$2" && same "$printed" ;;
    report) report "$2" && same "$printed" ;;
    lines) report "$2" && has_lines ;;
    file) cp "$block" "$2" ;;
    console) console "${2:-}" ;;
    *) played=$((played - 1)) ;;
  esac
}

# club_of_three: the club that docs/MODERATOR.md makes, up to its last joining
club_of_three() {
  kiwirudder init . --world worlds/coast.toml --moderator gm@example.org --seed 5417 &&
    kiwirudder join "The Grey Havens" ann@example.org && kiwirudder join Bree bob@example.org &&
    kiwirudder join Rohan eve@example.org
}

# prepare: what was done before the page begins
prepare() {
  case $page in
    README.md | docs/TUTORIAL.md) campaign worlds/isle.toml 3 ;;
    docs/QUICKSTART.md) campaign worlds/coast.toml 41 ;;
    docs/SERVER.md) club_of_three >club.log 2>&1 || stop "no club: $(cat club.log)" ;;
  esac
  case $page in
    README.md | docs/QUICKSTART.md) join Avalon apple ;;
  esac
}

# play_page PAGE: each of its blocks, in a folder of its own
play_page() {
  local page=$1 begin=0 inside= line number=0 played=0 seed passes closed waits
  mkdir "$work/club" && cd "$work/club" && cp -r "$here/worlds" "$here/examples" .
  prepare
  while IFS= read -r line <&4; do
    number=$((number + 1))
    if [ -n "$inside" ] && [ "$line" = '```' ]; then
      play ${inside:3}
      inside=
    elif [ -n "$inside" ]; then
      printf '%s\n' "$line" >>"$block"
    elif [ "${line:0:3}" = '```' ]; then
      begin=$number inside=$line
      : >"$block"
    fi
  done 4<"$here/$page"
  [ "$played" -gt 0 ] || stop 'no block of the page is played'
}

for page in ${*:-README.md docs/QUICKSTART.md docs/TUTORIAL.md docs/PLAYER.md docs/MODERATOR.md docs/SERVER.md docs/WORLDS.md}; do
  (play_page "$page") || failed=1
  rm -rf "$work/club"
done
[ "$failed" = 0 ] && echo 'pages: all as printed'
exit "$failed"
