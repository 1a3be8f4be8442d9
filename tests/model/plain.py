#!/usr/bin/env python3
"""Calculates cases of phases once more by the sentences of docs/RULES.md, simply and slowly: for each unit it looks at all units.

tests/model/plain.py FILE..    plays the cases of files of crates/atl_phase_tests/data, and tells each line in which they differ from what is written there"""
import os, sys

sys.dont_write_bytecode = True

from plain_campaign import Campaign, Month, Structure, Unit, World, stock
from plain_month import buy, produce, recruit, season, sell, sweep, tax, upkeep, work
from plain_orders import build, each, form, give, guard, learn, move, name, place, quit_campaign, sail, transfer

ENTRIES = "founding joining income wages recruiting study upkeep lost births starved left made used bought sold stocked".split()

# ---- the phases


def carry_out(c, m):
    form(c, m)
    each(c, m, name, "NAME", "GUARD", flag="0")
    each(c, m, place, "LEAVE", "ENTER", "PROMOTE")
    each(c, m, give, "GIVE", "PAY")
    each(c, m, transfer, "TRANSFER")
    sell(c, m)
    buy(c, m)
    tax(c, m)
    recruit(c, m)
    each(c, m, guard, "GUARD", flag="1")
    each(c, m, quit_campaign, "QUIT")
    each(c, m, move, "MOVE")
    each(c, m, sail, "SAIL")
    each(c, m, build, "BUILD")
    learn(c, m)
    produce(c, m)


RUNS = {
    "orders": [carry_out],
    "work": [work],
    "upkeep": [upkeep],
    "season": [season],
    "seasons": [season, season],
    "sweep": [sweep],
    "month": [carry_out, work, upkeep, season, sweep],
}


# ---- what is told


def told_of_unit(world, number, before, after):
    old = before or Unit(0, 0, 0, name="")
    if old.name != after.name:
        yield f"unit {number} name {after.name}"
    for what in ("faction", "region", "inside", "men", "money", "guard"):
        if getattr(old, what) != getattr(after, what):
            yield f"unit {number} {what} {getattr(after, what)}"
    for item in world.items:
        if old.has(item) != after.has(item):
            yield f"unit {number} {item} {after.has(item)}"
    for skill in world.skills:
        if old.days.get(skill, 0) != after.days.get(skill, 0):
            yield f"unit {number} {skill} {after.days.get(skill, 0)}"


def told_of(world, before, after):
    for n, old in sorted(before.units.items()):
        if n in after.units:
            yield from told_of_unit(world, n, old, after.units[n])
        else:
            yield f"unit {n} gone"
    for n, new in sorted(after.units.items()):
        if n not in before.units:
            yield from told_of_unit(world, n, None, new)
    for n, new in sorted(after.structures.items()):
        old = before.structures.get(n) or Structure("", 0, 0, 0, "")
        for what in ("name", "kind", "region", "done", "owner"):
            if getattr(old, what) != getattr(new, what):
                yield f"structure {n} {what} {getattr(new, what)}"
    for sort, old, new in (("region", before.regions, after.regions), ("faction", before.factions, after.factions)):
        for n in sorted(new):
            for what in new[n]:
                if old[n][what] != new[n][what]:
                    yield f"{sort} {n} {what} {new[n][what]}"
    for what in ("unit", "structure"):
        if before.next(what) != after.next(what):
            yield f"next {what} {after.next(what)}"
    for thing in ("money", "people", *world.items):
        for entry in ENTRIES:
            if after.books.get((thing, entry)):
                yield f"booked {thing} {entry} {after.books[thing, entry]}"


# ---- files of cases


class Case:
    def __init__(self, title):
        self.title, self.mailings, self.words, self.wanted = title, [], [], []


def setting(world, lines):
    c = Campaign(world)
    for line in lines:
        word, rest = line.split(" ", 1)
        times = 1
        if word == "times":
            times, word, rest = rest.split(" ", 2)
        for _ in range(int(times)):
            put(c, word, rest.split())
    c.begin()
    return c


def put(c, word, words):
    if word == "unit":
        faction, region, inside, men, money = map(int, words[:5])
        c.units[len(c.units) + 1] = Unit(faction, region, inside, men, money, int(words[5:] == ["guard"]))
    elif word == "has":
        unit, amount = c.units[int(words[0])], int(words[2])
        (unit.items if words[1] in c.world.items else unit.days)[words[1]] = amount
    elif word == "structure":
        region, done, owner = map(int, words[1:])
        c.structures[len(c.structures) + 1] = Structure(words[0], region, done, owner)
    elif word == "stock":
        c.regions[int(words[0])][stock(words[1])] = int(words[2])
    elif word == "menless":
        c.units[int(words[0])].men, c.units[int(words[0])].days = 0, {}
    elif word == "next_unit":
        c.next_unit = int(words[0])


def played(world, run, lines, case):
    before, after = setting(world, lines), setting(world, lines)
    month = Month(["\n".join(mail) for mail in case.mailings], case.words)
    for phase in RUNS[run]:
        phase(after, month)
    return [*told_of(world, before, after), *month.events]


def cases_of(path):
    """Of each case of a file the world, the phases, the campaign's lines, and itself."""
    world, run, lines, case = None, None, [], None
    for line in open(path):
        line = line.rstrip("\n")
        word, rest = line.split(" ", 1) if " " in line else (line, "")
        if word in ("case", "campaign", "run") and case:
            yield world, run, lines, case
            case = None
        if word == "world":
            world = World(os.path.join(os.path.dirname(path), rest))
        elif word == "run":
            run = rest
        elif word == "campaign":
            lines = []
        elif word == "case":
            case = Case(rest)
        elif word == "mail":
            case.mailings.append([])
        elif word == ">":
            case.mailings[-1].append(rest)
        elif word == "word":
            case.words.append(int(rest))
        elif word == "=":
            case.wanted.append(rest)
        elif word not in ("", "--"):
            lines.append(line)
    if case:
        yield world, run, lines, case


def compare(path):
    differ, count = 0, 0
    for world, run, lines, case in cases_of(path):
        told, count = played(world, run, lines, case), count + 1
        if told != case.wanted:
            differ += 1
            print(f"{path}: {case.title}")
            print("".join(f"  reckoned: {line}\n" for line in told if line not in case.wanted), end="")
            print("".join(f"  written:  {line}\n" for line in case.wanted if line not in told), end="")
    print(f"{path}: {count} cases, {differ} differ")
    return differ


def main():
    if len(sys.argv) < 2:
        sys.exit(__doc__)
    sys.exit(1 if sum(compare(path) for path in sys.argv[1:]) else 0)


if __name__ == "__main__":
    main()
