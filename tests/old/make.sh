#!/usr/bin/env bash
# Makes the files of the first format beside it, and what was printed of them then: all reports, one after another, and the books. Called as
#   tests/old/make.sh PROGRAM
# with the program of commit 9713b8a, the last one that writes this format. It wants python3. Nothing calls it: the files are kept as they
# were made.
#   trial.db   worlds/small.toml; two factions, a closed month, and mail
#   club.db    worlds/isle.toml; the two months of a club's first hour, and mail with orders that there were none of then
#   crowd.db   990 units of 2 factions in 250 regions, as in bench/closing of commit 11e96e8b; a closed month with structures, and mail of
#              both. It is packed, and so are its reports
set -eu
program=$1
old=$(cd "$(dirname "$0")" && pwd)
here=$(cd "$old/../.." && pwd)
work=$(mktemp -d)
trap 'rm -rf "$work"' EXIT
cd "$work"

# play SUBCOMMAND WORD..: a command on the file that is made, which succeeds
play() {
  "$program" "$1" --db "$db" "${@:2}" >/dev/null
}

# mail FACTION PASS: sends what is on standard input
mail() {
  cat >mailing
  play mail --faction "$1" --pass "$2" --file mailing
}

# keep PASS..: the file, and what is printed of it; the pass texts are those of the factions
keep() {
  local faction=0 pass
  cp "$db" "$old/$db"
  for pass in "$@"; do
    faction=$((faction + 1))
    "$program" report --db "$db" --faction "$faction" --pass "$pass"
  done >"$old/${db%.db}.reports"
  "$program" books --db "$db" >"$old/${db%.db}.books"
}

db=trial.db
"$program" found --world "$here/worlds/small.toml" --db "$db" --pass gm >/dev/null
play join --name Avalon --pass pw --seed 0
mail 1 pw <<'MAIL'
#ATLANTIS 1
UNIT 1
NAME UNIT "Wardens of Vale"
GUARD 1
DANCE
MAIL
play close --month 1 --pass gm --seed 0
play join --name Bree --pass pb --seed 0
mail 1 pw <<'MAIL'
#ATLANTIS 1
UNIT 1
TAX
MAIL
keep pw pb

db=club.db
"$program" found --world "$here/worlds/isle.toml" --db "$db" --pass moderator >/dev/null
play join --name Avalon --pass apple --seed 3
play join --name Bree --pass pony --seed 3
mail 1 apple <<'MAIL'
Dear moderator, here are my orders.

#ATLANTIS 1
UNIT 1
NAME UNIT "Woodcutters of Far"
GUARD 1
FORM 1
  RECRUIT 4
  WORK
END
PAY NEW 1 200
STUDY lumberjack
#END

See you next month.
MAIL
play close --month 1 --pass moderator --seed 3
mail 1 apple <<'MAIL'
#ATLANTIS 1
UNIT 1
TAX
PRODUCE wood
UNIT 3
STUDY lumberjack
MAIL
mail 2 pony <<'MAIL'
#ATLANTIS 2
UNIT 2
MOVE NORTH
MAIL
play close --month 2 --pass moderator --seed 3
mail 1 apple <<'MAIL'
#ATLANTIS 1
UNIT 1
BUY 1 wood
SELL 1 wood
UNIT 3
WORK
MAIL
keep apple pony

db=crowd.db
cat >fill.py <<'END'
import importlib.util, sys
from importlib.machinery import SourceFileLoader

place, regions, factions, units, path = sys.argv[1], *map(int, sys.argv[2:5]), sys.argv[5]
loader = SourceFileLoader("closing", place)
closing = importlib.util.module_from_spec(importlib.util.spec_from_loader("closing", loader))
loader.exec_module(closing)
if path == "world":
    print(closing.world(regions), end="")
elif path == "mail":
    for faction in range(1, factions + 1):
        with open(f"mail{faction}", "w") as file:
            file.write(closing.mailing(faction, factions, units))
else:
    closing.filled(path, factions, regions, units)
END
mkdir bench
for name in closing month.txt; do
  git -C "$here" show "11e96e8b:bench/$name" >"bench/$name"
done
fill() {
  python3 -B fill.py bench/closing 250 2 990 "$1"
}
fill world >world.toml
fill mail
"$program" found --world world.toml --db "$db" --pass gm >/dev/null
fill "$db"
play close --month 1 --pass gm --seed 1
mail 1 pw <mail1
mail 2 pw <mail2
keep pw pw
gzip -n9f "$old/crowd.db" "$old/crowd.reports"
