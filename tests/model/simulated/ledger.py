"""What each kind of work brings: money and months of a person, from reports and the mailings between them."""
from collections import defaultdict

# the kind of work of the units of these names; all other units have WORK and TAX alone
ROLES = {
    "Woodcutters": "wood",
    "Miners": "iron",
    "Cartwrights": "carts",
    "Smiths": "tools",
    "Sailors": "trade",
    "Shipwrights": "trade",
    "Hagglers": "haggling",
}
MONTH_LONG = ("STUDY", "PRODUCE", "BUILD", "MOVE", "SAIL")


class Ledger:
    def __init__(self, world):
        self.world = world
        self.money, self.months = defaultdict(int), defaultdict(int)

    def add(self, other):
        for work, money in other.money.items():
            self.money[work] += money
            self.months[work] += other.months[work]

    def month(self, before, text, after):
        """Enters what came of a mailing, by the reports before and after it."""
        lines = [[], *(line.split() for line in text.split("\n"))]
        old, new = ({unit.number: unit for unit in report.units} for report in (before, after))
        for event in after.events:
            if not event.fault and event.unit in {**old, **new}:
                self.order(event, lines[event.line], old, new)

    def order(self, event, words, old, new):
        unit = old.get(event.unit) or new[event.unit]
        men = new[event.unit].men if event.unit in new else 0
        role = ROLES.get(new.get(event.unit, unit).name)
        if event.verb == "WORK":
            self.enter("work", event.number, men)
        elif event.verb == "TAX":
            self.enter("tax", event.number, unit.men)
        elif role:
            brought = self.brought(event, words, unit, men)
            self.enter(role, brought, men if event.verb in MONTH_LONG else 0)
            if event.verb == "GIVE":
                self.enter(ROLES[old[int(words[1])].name], -brought, 0)

    def close(self, report):
        """At the end a unit's goods are worth what the best market pays."""
        for unit in report.units:
            for item, amount in unit.items.items():
                if unit.name in ROLES:
                    best = max(self.world.paid(number, item) for number in self.world.regions)
                    self.enter(ROLES[unit.name], amount * best, 0)

    def enter(self, work, money, months):
        self.money[work] += money
        self.months[work] += months

    def brought(self, event, words, unit, men):
        """The money that an order brought to its unit, or cost it. A gift is worth what the market there pays."""
        if event.verb in ("SELL", "GIVE"):
            return event.number * self.world.paid(unit.region, words[-1])
        if event.verb == "BUY":
            return -event.number * self.world.markets(unit.region)[words[-1]]["price"]
        if event.verb == "STUDY":
            return -self.world.fees[words[-1]] * men
        return 0
