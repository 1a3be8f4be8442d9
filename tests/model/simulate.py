#!/usr/bin/env python3
"""Plays worlds/coast.toml with simple players, by the program itself: two years each, of four to six factions.

tests/model/simulate.py [--seeds N]

It plays the seeds 1 to N (2 by default, and at least), and prints what became of the players, what each kind of work
brought, and the books. It ends with 'simulate: as expected' and status 0, or with what differs and status 1."""
import argparse, os, statistics, sys, tempfile
from collections import defaultdict
from concurrent.futures import ThreadPoolExecutor

sys.dont_write_bytecode = True

from simulated import players
from simulated.club import ROOT, Club
from simulated.ledger import ROLES, Ledger
from simulated.report import Report
from simulated.world import World, complaints

KINDS = ("taxer", "settler", "maker", "trader", "worker", "careless", "haggler")
# the players of the first campaign, the second and the third; the fourth has those of the first again, and so on
CLUBS = (
    ("taxer", "maker", "trader", "careless", "settler", "worker"),
    ("taxer", "maker", "trader", "careless", "haggler"),
    ("taxer", "maker", "trader", "settler"),
)
MONTHS, HALF = 24, 6
# The 500 peasants of a full plain feed 50 people, who bring 500 by tax and 600 by work, and cost 500. So with 50 people it
# leaves its faction 600 a month, which is the bound for scripted players. (With 100 people it would leave 700.)
MOST_OF_A_REGION = 600
# A careless player is out of the game by this month.
GONE_BY = 6


class Player:
    """A faction, the function that writes its mailings, and what it had after each month."""

    def __init__(self, kind, faction, first):
        self.kind, self.faction, self.report = kind, faction, first
        self.men, self.money, self.held = [first.men], [first.money], [len(first.regions)]
        self.start, self.starved, self.faulty = first.units[0].region, 0, []

    @property
    def careful(self):
        return self.kind not in ("careless", "haggler")

    def close(self, report):
        self.report = report
        self.men.append(report.men)
        self.money.append(report.money)
        self.held.append(len(report.regions))
        self.starved += report.starved


def campaign(seed, world, path):
    with tempfile.TemporaryDirectory() as folder:
        return play(Club(folder, path, seed), seed, world)


def play(club, seed, world):
    """Plays a campaign, and returns its players, what each kind of work brought, and the books."""
    ledger = Ledger(world)
    group = CLUBS[(seed - 1) % len(CLUBS)]
    kinds = [group[(place - seed) % len(group)] for place in range(len(group))]
    joined = [(kind, club.join(kind.capitalize())) for kind in kinds]
    all_players = [Player(kind, faction, Report(club.report(faction))) for kind, faction in joined]
    for month in range(1, MONTHS + 1):
        texts = {}
        for player in all_players:
            if player.report.units:
                texts[player] = getattr(players, player.kind)(player.report, world)
                player.faulty += club.mail(player.faction, texts[player])
        club.close(month)
        for player, text in texts.items():
            after = Report(club.report(player.faction))
            ledger.month(player.report, text, after)
            player.close(after)
    for player in all_players:
        ledger.close(player.report)
    return all_players, ledger, club.books()


# ---- what is expected


def expected(seed, player):
    """What differs from what is expected of a player."""
    who = f"seed {seed}, {player.kind}"
    for line in player.faulty:
        yield f"{who}: a faulty line in a mailing, {line}"
    if player.kind == "careless" and (player.report.units or player.report.month > GONE_BY):
        yield f"{who}: still there after month {GONE_BY}"
    if not player.careful:
        return
    if player.starved or not player.report.units:
        yield f"{who}: {player.starved} starved"
        return
    for end in range(HALF, len(player.money), HALF):
        gain = player.money[end] - player.money[end - HALF]
        most = HALF * MOST_OF_A_REGION * max(player.held[end - HALF : end + 1])
        if gain > most:
            yield f"{who}: {gain} money more at month {end}, and the bound is {most}"
    if player.money[-1] <= player.money[-1 - HALF]:
        yield f"{who}: no richer at the end than half a year before"


def pays(ledger, world):
    """Each kind of work must pay for a person, but haggling must cost money."""
    if ledger.money["haggling"] > 0:
        yield "haggling: the markets give money away"
    for work in sorted({"work", "tax", *ROLES.values()}.difference(ledger.months)):
        yield f"{work}: nobody did it"
    for work, months in ledger.months.items():
        if work != "haggling" and ledger.money[work] <= months * world.rules["maintenance"]:
            yield f"{work}: {ledger.money[work]} money in {months} months of a person, who costs more"


# ---- what is printed


def spread(values):
    """The median, with the least and the greatest."""
    return f"{round(statistics.median(values))} ({min(values)}..{max(values)})"


def table(rows):
    widths = [max(len(row[column]) for row in rows) for column in range(len(rows[0]))]
    for row in rows:
        print("  ".join(cell.ljust(width) for cell, width in zip(row, widths)).rstrip())
    print()


def print_players(played):
    ends = range(HALF, MONTHS + 1, HALF)
    rows = [["player", "", *(f"month {month}" for month in ends)]]
    for kind in KINDS:
        mine = [player for all_players, _, _ in played for player in all_players if player.kind == kind]
        for what in ("men", "money"):
            after = lambda player, month: (getattr(player, what) + [0] * MONTHS)[month]
            rows.append([kind, what, *(spread([after(player, month) for player in mine]) for month in ends)])
    table(rows)


def print_starts(played):
    """How many factions begin in a region with another."""
    starts = [[player.start for player in all_players] for all_players, _, _ in played]
    together = sum(mine.count(start) > 1 for mine in starts for start in mine)
    print(f"{together} of {sum(map(len, starts))} factions begin in a region with another.\n")


def print_work(ledger):
    cost = ledger.world.rules["maintenance"]
    rows = [["work", "months of a person", f"money for each, at a cost of {cost}"]]
    for work in sorted(ledger.months):
        rows.append([work, str(ledger.months[work]), f"{ledger.money[work] / max(1, ledger.months[work]):.1f}"])
    table(rows)


def print_books(played):
    """The money of the books, on the average of the campaigns."""
    sums = defaultdict(int)
    for _, _, books in played:
        for words in (line.split() for line in books.splitlines()):
            if words[0] == "money":
                sums[words[1]] += int(words[2])
    table([["money", "of a campaign"], *([entry, str(round(amount / len(played)))] for entry, amount in sums.items())])


def main():
    parser = argparse.ArgumentParser(description=__doc__, formatter_class=argparse.RawDescriptionHelpFormatter)
    parser.add_argument("--seeds", type=int, default=2, metavar="N")
    seeds = parser.parse_args().seeds
    if seeds < 2:
        parser.error("not all kinds of work are done in one campaign")
    path = os.path.join(ROOT, "worlds", "coast.toml")
    world = World(path)
    sum_of_all, differs = Ledger(world), complaints(world)
    with ThreadPoolExecutor(os.cpu_count()) as pool:
        played = list(pool.map(lambda seed: campaign(seed, world, path), range(1, seeds + 1)))
    for seed, (all_players, ledger, _) in enumerate(played, 1):
        sum_of_all.add(ledger)
        differs += [line for player in all_players for line in expected(seed, player)]
    differs += pays(sum_of_all, world)
    print_players(played)
    print_starts(played)
    print_work(sum_of_all)
    print_books(played)
    for line in differs:
        print(f"simulate: {line}")
    if differs:
        sys.exit(1)
    print("simulate: as expected")


if __name__ == "__main__":
    main()
