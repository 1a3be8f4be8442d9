#!/usr/bin/env bash
# A club's first hour: a campaign is founded on an island, two players join, one sends orders, the first month is closed, and reports are read. It prints
# each command and what the program answers, and works in a temporary folder. Called without arguments, it takes a few seconds; nothing is proved or built.
set -eu
here=$(cd "$(dirname "$(readlink -f "$0")")/.." && pwd)
club=$(mktemp -d)
trap 'rm -rf "$club"' EXIT
cd "$club"
cp "$here/worlds/isle.toml" .

# tell WORD..: what a person says
tell() {
  printf '\n# %s\n' "$*"
}

# gm WORD..: a command of the moderator's, shown and run
gm() {
  printf '$ gm'
  printf ' %q' "$@"
  printf '\n'
  "$here/gm" "$@"
}

tell 'The moderator founds the campaign, with a pass text of their own. Pass texts are stored as they are, so nobody else may read the files.'
printf '$ umask 077\n'
umask 077
gm found --world isle.toml --db club.db --pass moderator

tell 'Two players join. The seed is the club'"'"'s: it says where each begins, and the closing of a month wants it too.'
gm join --db club.db --name Avalon --pass apple --seed 3
gm join --db club.db --name Bree --pass pony --seed 3

tell 'The first player reads the report that was made as Avalon joined.'
gm report --db club.db --faction 1 --pass apple

tell 'The second player joined later, and sees both.'
gm report --db club.db --faction 2 --pass pony

tell 'The first player writes orders, and mistypes one.'
cat >avalon.txt <<'ORDERS'
Dear moderator, here are my orders.

#ATLANTIS 1
UNIT 1
NAME UNIT "Woodcutters of Far"
GAURD 1
FORM 1
  RECRUIT 4
  WORK
END
PAY NEW 1 200
STUDY lumberjack
#END

See you next month.
ORDERS
cat avalon.txt
gm mail --db club.db --faction 1 --pass apple --file avalon.txt

tell 'Line 6 is no order, so it is mended and all is sent again. The last mailing counts.'
sed -i 's/^GAURD 1$/GUARD 1/' avalon.txt
gm mail --db club.db --faction 1 --pass apple --file avalon.txt

tell 'The campaign is one file. A command of gm brings all into it, and then a copy keeps it.'
printf '$ gm books --db club.db >/dev/null && cp club.db before-1.db\n'
"$here/gm" books --db club.db >/dev/null && cp club.db before-1.db
gm report --db before-1.db --faction 1 --pass apple

tell 'The moderator closes the first month: all orders are carried out, and each faction gets a new report. kiwirudder close does this with the copy.'
gm close --db club.db --month 1 --pass moderator --seed 3

tell 'The first player reads what came of the orders. The new unit is unit 3, whose four recruits earned what they need.'
gm report --db club.db --faction 1 --pass apple

tell 'The moderator looks at the books: what came in and went, under which heading, and how much there is.'
gm books --db club.db
