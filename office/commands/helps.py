"""What `kiwirudder COMMAND --help` says below the first line, with an example."""

from __future__ import annotations

HELPS = {
    "init": """\
The folder gets the settings (club.toml), a seed, your pass text, and the
campaign. Publish the checksum of the seed that it prints. In a folder that has
a campaign already, with the files club.db, pass and seed, it adds what is
missing, and leaves out --world.

  kiwirudder init ~/club --world worlds/coast.toml --moderator gm@example.org --apart 6""",
    "join": """\
The letter has the faction's number, a pass text, the first report, the guide
for players and the world file. It waits in out/ for `send`.

  kiwirudder join "The Grey Havens" ann@example.org""",
    "set-pass": """\
The player gets a letter with it. Write 0 for your own pass text, which is then
in the file pass.

  kiwirudder set-pass 3""",
    "address": """\
These are all addresses from which the player's mail counts without a pass text.

  kiwirudder address 3 eve@example.org eve@work.example""",
    "substitute": """\
Until that month is closed, mail from this address counts for the faction too,
and gets its letters.

  kiwirudder substitute 3 tim@example.org 7
  kiwirudder substitute 3 none""",
    "fetch": """\
Messages come from the mailbox that club.toml names under [imap], each once.
They stay there, marked as read. This line in ~/.forward brings each message as
it comes:

  "|/usr/bin/kiwirudder --club /home/gm/club fetch --stdin" """,
    "take": """\
Files NAME.eml are whole messages, and NAME.mbox has several. NUMBER.txt is the
text of a mail that you know to be from the player of that faction. Each file
moves to mail/taken, held, refused, dropped or aside. The replies wait in out/.""",
    "accept": """\
The message is then taken as if it had come in time from the player's address.

  kiwirudder accept 5e20
  kiwirudder accept 5e20 --block 2""",
    "refuse": """\
The player of the faction gets a letter with your reason, if you give one.

  kiwirudder refuse 5e20 It came after the deadline.""",
    "withdraw": """\
The faction's people work for wages then, as if it had sent nothing. The player
gets a letter.""",
    "remind": """\
A faction gets at most one reminder a day. The letters wait in out/.""",
    "send": """\
Letters go to the mail server that club.toml names under [smtp]. A letter that
it takes moves to out/sent, and one that it refuses for good to out/failed. One
that it can't take at this time stays. Without a mail server, mail the files of
out/ by hand, and move them to out/sent.""",
    "resend": """\
  kiwirudder resend 3
  kiwirudder resend 3 5""",
    "close": """\
It asks first if something looks wrong: the deadline is still to come, messages
are held, most factions are silent, the seed is another than before, or the last
month was closed less than a day ago. The month is closed in a copy first, so a
failure changes nothing.

  kiwirudder close
  kiwirudder close 5 --yes""",
    "serve": """\
It answers on this machine alone (127.0.0.1), and starts the program again when
it ends. Other commands pause it as long as they need the campaign's file.""",
    "replay": """\
It plays in a folder of its own, and changes nothing. The first difference is
shown. It needs no club's folder: others can check months that were published.

  kiwirudder replay
  kiwirudder replay public/months --checksum 2fead305..
  kiwirudder replay --from before-6.db""",
    "back": """\
The copy before-M.db takes the place of club.db. What was newer is kept in
undone/. The mailings since then are taken again when their months are open, and
factions that joined since then join again.

  kiwirudder back 5""",
    "backup": """\
The copy has a folder of its own with the date. It is read again and compared
before it gets its name. It holds all pass texts.

  kiwirudder backup /media/stick/copies --keep 10""",
    "publish": """\
The folder has the months without letters, addresses and pass texts. They are
played again before it says done. The seed is left out, unless you ask for it
when the campaign is over.

  kiwirudder publish ~/public --with-seed""",
    "check": """\
It doesn't know the units of a faction, so it can't say whether an order will
succeed. It needs no club's folder.

  kiwirudder check world.toml orders.txt""",
    "chronicle": """\
It has who leads, who came and went, money, goods, prices, and the press that
players sent by lines `; PRESS text`. It shows only what all may know, unless
you say --open.

  kiwirudder chronicle 5 --out chronicle.html""",
    "map": """\
  kiwirudder map 5 --out map.svg""",
}
