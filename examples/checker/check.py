#!/usr/bin/env python3
"""Checks a printed day against its market files: a second opinion beside `mari check`, which is proved.

usage: examples/checker/check.py FOLDER [TEXT]

TEXT is FOLDER/publication.txt where it isn't given. The answer is that of `mari check`: `valid PUBLISHED UNPUBLISHED` with
exit code 0, `invalid RUN FAULT` with 7, or `refused publication.txt LINE NUMBER NAME` with 3. It is written from
docs/RULES.md, PROBLEM.md, FORMATS.md and REACH.md alone, on Python's standard library, and shares no code with the program.
The market files are taken for granted: those that `mari check` refuses may come to any answer here, or end in a traceback.

A text whose first line begins with `mari 2 ` is one of the second form (docs/REACH.md), and its answer is `valid FIRST
WITHIN`: how many runs have the first activation, and how many one within a gap of the best. lines.py has the lines of both
forms, states.py the trees of the second.
"""

import csv
import datetime
import itertools
import os
import sys
import time
from collections import defaultdict
from pathlib import Path

from lines import CAP, cents, quarter_cents, refusal_of
from states import reach_faults


def quarters_of(date, rule):
    """How many quarter hours a date has by the clock of a POSIX rule, as the system's C library reads it."""
    os.environ["TZ"] = rule
    time.tzset()
    days = [datetime.date.fromisoformat(date) + datetime.timedelta(days=more) for more in (0, 1)]
    begin, end = [time.mktime((day.year, day.month, day.day, 0, 0, 0, 0, 0, -1)) for day in days]
    return int(end - begin) // 900


class Folder:
    """The market files, read by name; each bid and demand is a dict of its line."""

    def __init__(self, path):
        def table(name):
            with open(Path(path, name), newline="", encoding="utf-8-sig") as file:
                return list(csv.DictReader(file))

        day = table("day.csv")[0]
        self.date, self.quarters = day["date"], quarters_of(day["date"], day["rule"])
        self.zones = [line["zone"] for line in table("zones.csv")]
        self.operator = {line["zone"]: line["operator"] for line in table("zones.csv")}
        self.borders = [(line["from"], line["to"]) for line in table("borders.csv")]
        self.runs, self.limits = table("runs.csv"), defaultdict(lambda: (0, 0))
        by_run = "limit" not in (table("borders.csv") or [{}])[0] and Path(path, "limits.csv").exists()
        for line in table("limits.csv" if by_run else "borders.csv"):
            for run in [line["run"]] if by_run else [run["run"] for run in self.runs]:
                self.limits[int(run), line["from"], line["to"]] = int(line["limit"]), int(line["back"])
        self.bids, self.demands = table("bids.csv"), table("demands.csv")
        self.group, self.parent, self.links = {}, {}, defaultdict(list)
        for line in table("links.csv"):
            if line["kind"] == "group":
                self.group[line["second"]] = line["first"]
            elif line["kind"] == "child":
                self.parent[line["first"]] = line["second"]
            else:
                self.links[line["kind"], line["first"]].append(line["second"])
        gated = set(self.group) | set(self.parent) | set(self.parent.values())
        self.gated = gated | {bid["id"] for bid in self.bids if int(bid["least"]) > 0}


class Order:
    """An order of a run's market: side is 1 where it injects, and -1 where it withdraws."""

    def __init__(self, zone, side, price, least, greatest, gate):
        self.zone, self.side, self.price = zone, side, price
        self.least, self.greatest, self.gate = least, greatest, gate

    def may_exchange(self, other):
        """Whether the gates of two orders are twins, where each has no other order, group, parent or child."""
        are_alike = (self.least, self.greatest, self.price) == (other.least, other.greatest, other.price)
        are_indivisible = self.least == self.greatest == other.least == other.greatest
        return (self.zone, self.side) == (other.zone, other.side) and (are_alike or are_indivisible)


class Market:
    """The market of a run over what the published blocks before it left."""

    def __init__(self, folder, run, earlier):
        self.zones, self.reference, self.twins = folder.zones, cents(run["reference"]), None
        number, quarter = int(run["run"]), run["quarter"]
        self.offered = [bid for bid in folder.bids if bid["quarter"] == quarter and is_offered(folder, bid, run, earlier)]
        names = [bid["id"] for bid in self.offered if bid["id"] in folder.gated]
        self.group = [folder.group.get(name) for name in names]
        parents = (folder.parent.get(name) for name in names)
        self.parent = [names.index(name) if name and not earlier.taken[name] else None for name in parents]
        self.orders = [self.order_of_bid(bid, names, earlier) for bid in self.offered]
        self.demands = [line for line in folder.demands if int(line["run"]) == number]
        self.orders += [order_of_demand(line) for line in self.demands]
        self.borders = []
        for start, end in folder.borders:
            limit, back = folder.limits[number, start, end]
            flowed = earlier.flow[quarter, start, end]
            self.borders.append((start, end, max(0, limit - flowed), max(0, back + flowed)))

    @staticmethod
    def order_of_bid(bid, names, earlier):
        gate = names.index(bid["id"]) if bid["id"] in names else None
        greatest = int(bid["greatest"]) - (earlier.taken[bid["id"]] if gate is None else 0)
        least = 0 if gate is None else max(1, int(bid["least"]))
        return Order(bid["zone"], 1 if bid["direction"] == "up" else -1, cents(bid["price"]), least, greatest, gate)

    def word_of(self, amounts):
        """Which gates are open: those of which an order runs."""
        running = {order.gate for order, amount in zip(self.orders, amounts) if amount > 0}
        return [gate in running for gate in range(len(self.group))]

    def keeps_rules(self, word):
        groups = [group for group, is_open in zip(self.group, word) if is_open and group is not None]
        return len(groups) == len(set(groups)) and all(
            parent is None or word[parent] for parent, is_open in zip(self.parent, word) if is_open)

    def is_feasible(self, amounts, flows, word):
        if (len(amounts), len(flows)) != (len(self.orders), len(self.borders)):
            return False
        within = all(
            order.least <= amount <= order.greatest if order.gate is None or word[order.gate] else amount == 0
            for order, amount in zip(self.orders, amounts))
        net = defaultdict(int)
        for order, amount in zip(self.orders, amounts):
            net[order.zone] += order.side * amount
        for (start, end, limit, back), flow in zip(self.borders, flows):
            within = within and -back <= flow <= limit
            net[start] -= flow
            net[end] += flow
        return within and self.keeps_rules(word) and not any(net.values())

    def welfare(self, amounts):
        return -sum(order.side * order.price * amount for order, amount in zip(self.orders, amounts))

    def bounds_of_prices(self, amounts, word):
        """The least and the greatest price that the orders of each zone leave to it."""
        low, high = dict.fromkeys(self.zones, -CAP), dict.fromkeys(self.zones, CAP)
        for order, amount in zip(self.orders, amounts):
            is_gated = order.gate is not None
            if is_gated and not word[order.gate]:
                continue
            runs, has_more = is_gated or amount > 0, amount < order.greatest
            if runs if order.side > 0 else has_more:
                low[order.zone] = max(low[order.zone], order.price)
            if has_more if order.side > 0 else runs:
                high[order.zone] = min(high[order.zone], order.price)
        return low, high

    def dearer(self, flows):
        """Pairs of zones of which the second is at least as dear as the first."""
        for (start, end, limit, back), flow in zip(self.borders, flows):
            if flow > -back:
                yield start, end
            if flow < limit:
                yield end, start

    def intervals(self, amounts, flows, word):
        """Each zone's least and greatest consistent price."""
        low, high = self.bounds_of_prices(amounts, word)
        pairs = list(self.dearer(flows))
        for _ in self.zones:
            for cheap, dear in pairs:
                low[dear] = max(low[dear], low[cheap])
                high[cheap] = min(high[cheap], high[dear])
        return low, high

    def are_consistent(self, prices, amounts, flows, word):
        low, high = self.bounds_of_prices(amounts, word)
        return all(low[zone] <= prices[zone] <= high[zone] for zone in self.zones) and all(
            prices[cheap] <= prices[dear] for cheap, dear in self.dearer(flows))

    def areas(self, flows):
        area = {zone: place for place, zone in enumerate(self.zones)}
        for _ in self.zones:
            for (start, end, limit, back), flow in zip(self.borders, flows):
                if -back < flow < limit:
                    area[start] = area[end] = min(area[start], area[end])
        number = {first: place for place, first in enumerate(sorted(set(area.values())), 1)}
        return {zone: number[area[zone]] for zone in self.zones}

    def state(self, prefix):
        """Of each gate whether it is open, closed (decided or implied), or free: True, False or None."""
        taken = {self.group[gate] for gate, is_open in enumerate(prefix) if is_open} - {None}
        state = list(prefix)
        for gate in range(len(prefix), len(self.group)):
            parent = self.parent[gate]
            is_closed = self.group[gate] in taken or (parent is not None and state[parent] is False)
            state.append(False if is_closed else None)
        return state

    def spans(self, state):
        """The bounds of each order, where gates have this state."""
        for order in self.orders:
            known = order.gate is None or state[order.gate]
            least = order.least if order.gate is not None and known else 0
            yield least, 0 if known is False else order.greatest

    def dual_value(self, prices, state):
        value = 0
        for order, (least, greatest) in zip(self.orders, self.spans(state)):
            surplus = order.side * (prices[order.zone] - order.price)
            value += max(surplus * least, surplus * greatest)
        for start, end, limit, back in self.borders:
            value += max((prices[end] - prices[start]) * limit, (prices[start] - prices[end]) * back)
        return value

    def is_cut(self, side, zones, state):
        """Whether the zones can't be balanced: they have to put out, or to take in, more than their borders carry."""
        least = most = out = into = 0
        for order, span in zip(self.orders, self.spans(state)):
            if order.zone in zones:
                put = sorted(order.side * amount for amount in span)
                least, most = least + put[0], most + put[1]
        for start, end, limit, back in self.borders:
            if (start in zones) != (end in zones):
                out += limit if start in zones else back
                into += back if start in zones else limit
        return least > out if side == "out" else most < -into

    def is_conflict(self, word, chain, prices, flows, amounts):
        """Whether the activation is the best of the gate word, and a chain of zones shows that it has no prices."""
        if "" in chain or len(prices) != len(self.zones) or self.word_of(amounts) != word:
            return False
        if not self.is_feasible(amounts, flows, word):
            return False
        if self.welfare(amounts) != self.dual_value(prices, word):
            return False
        low, high = self.bounds_of_prices(amounts, word)
        dearer = set(self.dearer(flows))
        return len(chain) <= len(self.zones) and all(
            pair in dearer for pair in itertools.pairwise(chain)) and low[chain[0]] > high[chain[-1]]

    def leaf_holds(self, leaf, prefix, cutoff):
        kind, *fields = leaf
        state = self.state(prefix)
        if kind == "bound":
            return len(fields[0]) == len(self.zones) and self.dual_value(fields[0], state) <= cutoff
        if kind == "cut":
            return "" not in fields[1] and self.is_cut(*fields, state)
        return len(prefix) == len(self.group) and self.is_conflict(prefix, *fields)

    def tree_faults(self, items, word, welfare, budget):
        """Of the first form: 9 where the shape fails anywhere, 10 where a leaf doesn't hold."""
        waiting, faults = [[]], set()
        for item in items:
            if not waiting:
                return {9}
            prefix = waiting.pop()
            if item != ("branch",):
                is_early = prefix + [False] * (len(word) - len(prefix)) < word
                if not self.leaf_holds(item, prefix, welfare - is_early):
                    faults.add(10)
                continue
            if len(prefix) == len(self.group):
                return {9}
            child = prefix + [True]
            if self.keeps_rules(child + [False] * (len(self.group) - len(child))):
                waiting.append(child)
            waiting.append(prefix + [False])
        return {9} if waiting or len(items) > budget else faults


def is_offered(folder, bid, run, earlier):
    """Whether a bid of the run's quarter is available in the run."""
    name, taken = bid["id"], earlier.taken
    if bid["kind"] == "scheduled" and run["kind"] == "direct":
        return False
    if taken[name] > 0 if name in folder.gated else taken[name] >= int(bid["greatest"]):
        return False
    if any(taken[other] for other, group in folder.group.items() if group == folder.group.get(name) and other != name):
        return False
    if not all(taken[other] for other in folder.links["needs", name]) or any(taken[other] for other in folder.links["bars", name]):
        return False
    if any(other in earlier.direct for other in folder.links["technical", name]):
        return False
    parent = folder.parent.get(name)
    if parent is None or taken[parent]:
        return True
    return is_offered(folder, next(other for other in folder.bids if other["id"] == parent), run, earlier)


def order_of_demand(line):
    amount = int(line["mw"])
    side = 1 if amount < 0 else -1
    return Order(line["zone"], side, cents(line["price"]) if line["price"] else -side * CAP, 0, abs(amount), None)


class Earlier:
    """What the published blocks so far took, and the sums of their money."""

    def __init__(self):
        self.taken, self.direct, self.flow = defaultdict(int), set(), defaultdict(int)
        self.scheduled, self.operators, self.providers = {}, defaultdict(lambda: [0, 0, 0]), defaultdict(int)

    def take(self, folder, run, market, block):
        for bid, amount in zip(market.offered, block.amounts):
            self.taken[bid["id"]] += amount
            if run["kind"] == "direct" and amount > 0:
                self.direct.add(bid["id"])
        for (start, end), flow in zip(folder.borders, block.flows):
            self.flow[run["quarter"], start, end] += flow
        if run["kind"] == "scheduled":
            self.scheduled[run["quarter"]] = block.prices
        for name, payment, rent, net in block.operators:
            self.operators[name] = [sum(pair) for pair in zip(self.operators[name], (payment, rent, net))]
        for name, amount in block.providers:
            self.providers[name] += amount


class Block:
    """A block of the text, as it is printed."""

    def __init__(self, heading, lines):
        self.heading, self.items, self.spent, self.gap = heading[:3], [], None, None
        self.zones, self.borders, self.bids, self.demands, self.operators, self.providers = [], [], [], [], [], []
        if heading[3] == "unpublished":
            self.spent = int(heading[4])
            return
        if heading[3] == "within":
            self.gap = quarter_cents(heading[4])
        self.welfare = int(next(lines)[1])
        for kind, *fields in lines:
            if kind == "zone":
                self.zones.append((fields[0], *map(cents, fields[1:4]), int(fields[4])))
            elif kind == "border":
                self.borders.append((fields[0], fields[1], int(fields[2]), quarter_cents(fields[3])))
            elif kind in ("bid", "demand"):
                (self.bids if kind == "bid" else self.demands).append((fields[0], int(fields[1])))
            elif kind == "tree":
                self.items = [item_of(self, lines) for _ in range(int(fields[0]))]
            elif kind in ("operator", "provider"):
                (self.operators if kind == "operator" else self.providers).append((fields[0], *map(quarter_cents, fields[1:])))
            else:
                break
        self.amounts = [amount for _, amount in self.bids + self.demands]
        self.flows = [line[2] for line in self.borders]
        self.prices = {line[0]: line[1] for line in self.zones}


def item_of(block, lines):
    """An item of a tree: zones by name, an empty one where there is none, and prices by zone, none where they don't go on them."""
    kind, *fields = next(lines)
    names = [line[0] for line in block.zones]

    def named(numbers):
        return [names[int(number) - 1] if int(number) <= len(names) else "" for number in numbers]

    def by_zone(prices):
        return dict(zip(names, map(cents, prices))) if len(prices) == len(names) else {}

    if kind == "bound":
        return kind, by_zone(fields)
    if kind == "cut":
        return kind, fields[0], named(fields[1:])
    if kind == "conflict":
        prices = by_zone(next(lines)[1:])
        return kind, named(fields), prices, [int(flow) for flow in next(lines)[1:]], [int(mw) for mw in next(lines)[1:]]
    if kind == "price":
        return kind, fields[0], cents(fields[1])
    return kind, *fields


def ledger(folder, market, block, scheduled):
    """The rents, the operators' lines and the providers' amounts that a block has to have."""
    rents = [(block.prices[end] - block.prices[start]) * flow for start, end, flow, _ in block.borders]
    payment, share = dict.fromkeys(folder.operator.values(), 0), defaultdict(int)
    for (start, end, flow, _), rent in zip(block.borders, rents):
        payment[folder.operator[end]] += block.prices[end] * flow
        payment[folder.operator[start]] -= block.prices[start] * flow
        share[folder.operator[start]] += rent - rent // 2
        share[folder.operator[end]] += rent // 2
    amounts = {}
    for bid, (_, amount) in zip(market.offered, block.bids):
        own, side = block.prices[bid["zone"]], 1 if bid["direction"] == "up" else -1
        other = (scheduled or block.prices)[bid["zone"]]
        paid = max(own, other) if side > 0 else min(own, other)
        amounts[bid["provider"]] = amounts.get(bid["provider"], 0) + side * paid * amount
    operators = [(name, pays, share[name], pays - share[name]) for name, pays in payment.items()]
    return rents, operators, list(amounts.items())


def faults_of(folder, run, market, block, earlier, budget, form):
    """The faults of a block, by their numbers, the least first."""
    if block.heading != [run["run"], run["quarter"], run["kind"]]:
        yield 1
    if block.spent is not None:
        if not block.spent <= budget < block.spent + 2:
            yield 9
        return
    names = (market.zones, folder.borders, [bid["id"] for bid in market.offered], [str(place + 1) for place in range(len(market.demands))])
    printed = ([line[0] for line in block.zones], [line[:2] for line in block.borders], [line[0] for line in block.bids], [line[0] for line in block.demands])
    if names != printed:
        yield 2
        return
    amounts, flows = block.amounts, block.flows
    word = market.word_of(amounts)
    if not market.is_feasible(amounts, flows, word):
        yield 3
    if market.welfare(amounts) != block.welfare:
        yield 4
    if not market.are_consistent(block.prices, amounts, flows, word):
        yield 5
    low, high = market.intervals(amounts, flows, word)
    if any((low[zone], high[zone]) != (least, greatest) for zone, _, least, greatest, _ in block.zones):
        yield 6
    if any(price != min(max(market.reference, low[zone]), high[zone]) for zone, price, *_ in block.zones):
        yield 7
    if market.areas(flows) != {line[0]: line[4] for line in block.zones}:
        yield 8
    if form == "1":
        yield from sorted(market.tree_faults(block.items, word, block.welfare, budget))
    elif block.gap is None:
        yield from sorted(reach_faults(market, block.items, word, block.welfare, budget))
    else:
        yield from sorted(reach_faults(market, block.items, [False] * len(word), block.welfare + block.gap, budget))
    rents, operators, providers = ledger(folder, market, block, earlier.scheduled.get(run["quarter"]) if run["kind"] == "direct" else None)
    if rents != [line[3] for line in block.borders] or operators != block.operators or providers != block.providers:
        yield 11


def has_totals(folder, earlier, lines):
    """Whether the last lines are the sums over the published blocks."""
    operators = [("total-operator", name, *earlier.operators[name]) for name in dict.fromkeys(folder.operator.values())]
    providers = [("total-provider", name, earlier.providers[name]) for name in dict.fromkeys(bid["provider"] for bid in folder.bids)]
    return operators + providers == [(line[0], line[1], *map(quarter_cents, line[2:])) for line in lines]


def check(folder, text):
    """The answer, as `mari check` prints it."""
    refusal = refusal_of(text)
    if refusal is not None:
        return f"refused publication.txt {refusal}"
    lines = iter([line.split(" ") for line in text.splitlines()])
    head, earlier, first, other = next(lines), Earlier(), 0, 0
    if head[2:4] != [folder.date, str(folder.quarters)]:
        return "invalid 0 1"
    line, number, budget = next(lines), 0, int(head[4])
    for number, run in enumerate(folder.runs, 1):
        if line[0] != "run":
            return f"invalid {number} 1"
        market, block = Market(folder, run, earlier), Block(line[1:], lines)
        for fault in faults_of(folder, run, market, block, earlier, budget, head[1]):
            return f"invalid {number} {fault}"
        if block.spent is None:
            earlier.take(folder, run, market, block)
        is_first = block.spent is None and block.gap is None
        first, other = first + is_first, other + (not is_first)
        line = next(lines)
    if line[0] == "run":
        return f"invalid {number + 1} 1"
    totals = [line, *lines]
    if not has_totals(folder, earlier, totals[:-1]):
        return f"invalid {number} 12"
    return f"valid {first} {other}"


def main(words):
    folder = Path(words[0])
    text = Path(words[1]) if len(words) > 1 else folder / "publication.txt"
    answer = check(Folder(folder), text.read_bytes().decode("latin-1"))
    print(answer)
    return {"valid": 0, "refused": 3, "invalid": 7}[answer.split()[0]]


if __name__ == "__main__":
    if len(sys.argv) not in (2, 3):
        sys.exit(__doc__)
    sys.exit(main(sys.argv[1:]))
