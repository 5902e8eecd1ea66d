"""What the page holds of a day: the whole day in short, and each run and quarter hour in full.

Money is text of whole quarter-cents, since the whole numbers of a browser are exact up to 2^53 alone.
"""
from mari import MariOtherFolder, Publication, Reasons, State
from mari.reasons import NO_RUN
from mari.units import cents, quarter_cents

DETAILED = 400      # of a tree with more items no bounds are shown
NO_DAY = {"date": "", "quarters": 1, "budget": 0, "form": 1, "times": [], "zones": [], "borders": [], "positions": None,
          "states": [state.value for state in State], "awaited": 0, "runs": [], "totals": False}
PLACE = {state: place for place, state in enumerate(State)}
LINKS = {"needs": "needs", "bars": "barred by", "technical": "barred by a direct activation of"}


def columns(rows, **read):
    """A list of each key's values, as they are read of the rows."""
    return {key: list(map(value, rows)) for key, value in read.items()}


def money(value):
    return str(quarter_cents(value))


def ledger_part(part):
    """The money of a block, or of the totals."""
    return {"operators": columns(part.operators, name=lambda row: row.operator, net=lambda row: money(row.net),
                                 payment=lambda row: money(row.payment), rent=lambda row: money(row.rent)),
            "providers": columns(part.providers, name=lambda row: row.provider, amount=lambda row: money(row.amount))}


LETTERS = {"branch": "B", "price": "P", "bound": "o", "conflict": "x", "none": "n"}


def letter(item):
    """A tree's item in short: one of LETTERS, or i and u for cuts of what comes in and goes out."""
    return LETTERS.get(item.kind) or ("i" if item.side == "in" else "u")


def ends(prices):
    return [cents(min(prices)), cents(max(prices))]


def tree_part(tree):
    """The items in preorder as letters; by their places the zones of cuts and conflicts, and a bound's ends."""
    zones = {at: item.zones for at, item in enumerate(tree) if item.kind in ("cut", "conflict")}
    few = len(tree) <= DETAILED
    bounds = {at: ends(item.prices) for at, item in enumerate(tree) if few and item.kind == "bound"}
    return {"items": "".join(map(letter, tree)), "zones": zones, "bounds": bounds}


def decisions_part(tree, zone_at):
    """At what a tree of the second form branches, by the places of its items: bids, and zones with prices."""
    few = tree if len(tree) <= DETAILED else []
    gates = {at: item.bid for at, item in enumerate(few) if item.kind == "branch"}
    prices = {at: [zone_at.get(item.zone), cents(item.price)] for at, item in enumerate(few) if item.kind == "price"}
    return {"gates": gates, "prices": prices}


class DayParts:
    """Takes the parts of a publication, one after the other, and gives the parts of the page."""

    def __init__(self, folder):
        self.folder, self.reasons, self.clock = folder, Reasons(folder), folder.clock()
        self.zone_at = {row.zone: place for place, row in enumerate(folder.zones)}
        self.limits = folder.limits_by_run()
        self.demands = {run.run: [] for run in folder.runs}
        for demand in folder.demands:
            self.demands[demand.run].append(demand)
        self.head, self.runs, self.quarter, self.has_totals = {}, [], 0, False

    def summary(self, fault=None):
        """The day in short."""
        folder, found = self.folder, {row.zone: [row.x, row.y] for row in self.folder.positions or ()}
        zones = list(self.zone_at)
        return {**NO_DAY, "date": folder.date, "quarters": self.clock.quarters, **self.head, "zones": zones,
                "borders": [[self.zone_at[row.from_zone], self.zone_at[row.to_zone]] for row in folder.borders],
                "positions": [found[zone] for zone in zones] if found else None, "awaited": len(folder.runs),
                "times": [self.clock.text(quarter) for quarter in range(1, self.clock.quarters + 2)],
                "runs": self.runs, "totals": self.has_totals, "fault": fault}

    def take(self, part):
        """Takes the head, a block or the totals, and yields (name, value) of the parts of the page."""
        if not isinstance(part, Publication):
            yield from self._block(part)
        elif not self.head:
            if (part.date, part.quarters) != (self.folder.date, self.clock.quarters):
                raise MariOtherFolder("publication.txt is of another day than day.csv")
            self.head = {"budget": part.budget, "form": part.form}
        else:
            if len(self.runs) != len(self.folder.runs):
                raise MariOtherFolder("publication.txt has the totals, but runs are missing")
            self.has_totals = True
            yield "totals", ledger_part(part)
            yield "without-run", self._without_run()

    def _block(self, block):
        number = len(self.runs) + 1
        if number > len(self.folder.runs) or block.run != number:
            raise MariOtherFolder(f"publication.txt: the block of run {block.run} isn't the next one")
        run, demands = self.folder.runs[number - 1], self.demands[number]
        self._compare(block, demands)
        bids = self.reasons.offers.of_quarter[run.quarter]
        reasons = self.reasons.take(run, block)
        if self.quarter != run.quarter:
            self.quarter, self.flows = run.quarter, [0] * len(self.folder.borders)
            yield f"quarter-{run.quarter}", self._quarter_part(bids)
        part = {"bids": self._bids_part(reasons), "borders": self._limits_part(run),
                "reasons": columns(reasons, state=lambda why: PLACE[why.state], text=lambda why: why.text),
                "demands": columns(demands, zone=lambda row: self.zone_at[row.zone], asked=lambda row: row.mw)}
        if block.published:
            self._add_found(part, block, demands)
        self.runs.append(self._in_short(run, block, part, bids, reasons))
        yield f"run-{number}", part

    def _without_run(self):
        """The bids of quarter hours without a run, and why they aren't offered."""
        with_run = {run.quarter for run in self.folder.runs}
        bids = [bid for bid in self.folder.bids if bid.quarter not in with_run]
        made = columns(bids, name=lambda bid: bid.id, provider=lambda bid: bid.provider,
                       quarter=lambda bid: bid.quarter, zone=lambda bid: self.zone_at[bid.zone],
                       up=lambda bid: int(bid.direction == "up"), price=lambda bid: cents(bid.price))
        return {**made, "why": NO_RUN}

    def _compare(self, block, demands):
        """Whether the block has the market files' zones, borders and number of demands."""
        if not block.published:
            return
        if [row.zone for row in block.zones] != list(self.zone_at):
            raise MariOtherFolder(f"run {block.run} has other zones than zones.csv")
        if [row[:2] for row in block.borders] != [row[:2] for row in self.folder.borders]:
            raise MariOtherFolder(f"run {block.run} has other borders than borders.csv")
        if len(block.demands) != len(demands):
            raise MariOtherFolder(f"run {block.run} has another number of demands than demands.csv")

    def _quarter_part(self, bids):
        """A list of each field, over the bids."""
        offers, place_of = self.reasons.offers, {bid.id: place for place, bid in enumerate(bids)}
        links = {place: [f"{words} {other}" for kind, words in LINKS.items()
                         for other in getattr(offers, kind).get(bid.id, ())] for place, bid in enumerate(bids)}
        made = columns(bids, name=lambda bid: bid.id, provider=lambda bid: bid.provider,
                       zone=lambda bid: self.zone_at[bid.zone], up=lambda bid: int(bid.direction == "up"),
                       price=lambda bid: cents(bid.price), least=lambda bid: bid.least,
                       greatest=lambda bid: bid.greatest, gated=lambda bid: int(bid.id in offers.gated),
                       group=lambda bid: offers.group_of.get(bid.id),
                       parent=lambda bid: place_of.get(offers.parent_of.get(bid.id)))
        return {**made, "links": {place: words for place, words in links.items() if words}}

    def _bids_part(self, reasons):
        """The bids that the run is offered: their places in the quarter hour, MW, what was left of them, their pay."""
        offered = [place for place, why in enumerate(reasons) if why.state is not State.WITHHELD]
        return {"place": offered, "mw": [reasons[place].mw for place in offered],
                "left": [reasons[place].left for place in offered],
                "pay": [money(reasons[place].pay) for place in offered]}

    def _limits_part(self, run):
        """Each border's limits in a run, less the flows of the quarter hour's runs so far."""
        pairs = list(zip(self.limits[run.run], self.flows))
        return {"limit": [max(0, limit - flow) for (limit, _), flow in pairs],
                "back": [max(0, back + flow) for (_, back), flow in pairs]}

    def _add_found(self, part, block, demands):
        """Adds what a published run found, and keeps its flows."""
        part["zones"] = columns(block.zones, price=lambda row: cents(row.price), least=lambda row: cents(row.least),
                                greatest=lambda row: cents(row.greatest), area=lambda row: row.area)
        part["borders"].update(columns(block.borders, flow=lambda row: row.mw, rent=lambda row: money(row.rent)))
        part["demands"].update(served=block.demands, unserved=[
            abs(demand.mw) - met if demand.at_any_price else 0 for demand, met in zip(demands, block.demands)])
        part.update(tree=tree_part(block.tree), **ledger_part(block))
        if block.form == 2:
            part["tree"].update(decisions_part(block.tree, self.zone_at))
        self.flows = [before + row.mw for before, row in zip(self.flows, block.borders)]

    def _in_short(self, run, block, part, bids, reasons):
        asked = part["demands"]["asked"]
        short = {"run": run.run, "quarter": run.quarter, "kind": run.kind, "reference": cents(run.reference),
                 "asked": [sum(max(0, mw) for mw in asked), sum(max(0, -mw) for mw in asked)]}
        if not block.published:
            return {**short, "nodes": block.nodes}
        if block.form == 2:
            short["gap"] = None if block.first else money(block.gap)
        served = list(zip(asked, block.demands))
        upward = sum(why.mw for bid, why in zip(bids, reasons) if bid.direction == "up")
        return {**short, "price": part["zones"]["price"], "welfare": money(block.welfare),
                "rent": money(sum(row.rent for row in block.borders)),
                "activated": [upward, sum(why.mw for why in reasons) - upward],
                "served": [sum(mw for asked, mw in served if asked >= 0), sum(mw for asked, mw in served if asked < 0)],
                "unserved": sum(part["demands"]["unserved"]),
                "rejected": sum(why.state is State.REJECTED for why in reasons)}
