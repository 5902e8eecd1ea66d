"""States of a market and their trees: the second form of certificate, by docs/REACH.md."""

from collections import defaultdict

from lines import CAP


def better_twins(market, gate):
    """The twins of a gate that rank before it: a better price or, of the same price, a later place in the file."""
    if market.twins is None:
        orders = defaultdict(list)
        for order in market.orders:
            orders[order.gate].append(order)
        is_bound = [group is not None or parent is not None for group, parent in zip(market.group, market.parent)]
        alone = [it for it, bound in enumerate(is_bound) if not bound and it not in market.parent and len(orders[it]) == 1]
        ranked = [((order.side * order.price, -it), it, order) for it in alone for order in orders[it]]
        market.twins = {it: {other for key, other, twin in ranked if key < rank and order.may_exchange(twin)} for rank, it, order in ranked}
    return market.twins.get(gate, set())


class State:
    """What decisions leave to the gates, the prices, the orders and the borders of a market, in the second form.

    A decision is `("gate", gate, whether it is open)` or `("price", zone, price, whether the zone's price is above it)`.
    """

    def __init__(self, market, decisions):
        self.market = market
        self.open = {gate for kind, gate, *_, is_open in decisions if kind == "gate" and is_open}
        self.open |= {twin for gate in self.open for twin in better_twins(market, gate)}
        for _ in market.parent:
            self.open |= {market.parent[gate] for gate in self.open} - {None}
        self.low, self.high = self.box(decisions)
        self.closed = {gate for kind, gate, *_, is_open in decisions if kind == "gate" and not is_open}
        self.closed |= {gate for gate in range(len(market.group)) if self.has_open_rival(gate)}
        self.closed |= {order.gate for order in market.orders if self.always_loses(order)} - {None}
        self.closed |= {gate for gate in range(len(market.group)) if better_twins(market, gate) & self.closed}
        for _ in market.parent:
            self.closed |= {gate for gate, parent in enumerate(market.parent) if parent in self.closed}
        self.is_void = bool(self.open & self.closed) or any(self.low[zone] > self.high[zone] for zone in market.zones)

    def box(self, decisions):
        """The least and the greatest price of each zone."""
        low, high = dict.fromkeys(self.market.zones, -CAP), dict.fromkeys(self.market.zones, CAP)
        for kind, zone, *rest in decisions:
            if kind == "price":
                price, is_above = rest
                if is_above:
                    low[zone] = max(low[zone], price + 1)
                else:
                    high[zone] = min(high[zone], price)
        for order in self.market.orders:
            if order.gate in self.open:
                if order.side > 0:
                    low[order.zone] = max(low[order.zone], order.price)
                else:
                    high[order.zone] = min(high[order.zone], order.price)
        return low, high

    def has_open_rival(self, gate):
        group = self.market.group
        return group[gate] is not None and any(group[other] == group[gate] for other in self.open - {gate})

    def always_gains(self, order):
        return order.price < self.low[order.zone] if order.side > 0 else order.price > self.high[order.zone]

    def always_loses(self, order):
        return order.price > self.high[order.zone] if order.side > 0 else order.price < self.low[order.zone]

    def span(self, order):
        """The bounds of an order."""
        if order.gate in self.closed or (order.gate is None and self.always_loses(order)):
            return 0, 0
        if order.gate is not None and order.gate not in self.open:
            return 0, order.greatest
        return order.greatest if self.always_gains(order) else order.least, order.greatest

    def flows(self):
        """Each border with the bounds of its flow."""
        for start, end, limit, back in self.market.borders:
            if self.low[end] > self.high[start]:
                yield start, end, limit, limit
            elif self.low[start] > self.high[end]:
                yield start, end, -back, -back
            else:
                yield start, end, -back, limit

    def gate_of(self, bid):
        """The decision at the gate of a bid, or None where it isn't free."""
        gates = [order.gate for order, offered in zip(self.market.orders, self.market.offered) if offered["id"] == bid]
        gate = gates[0] if gates else None
        return None if gate is None or gate in self.open | self.closed else ("gate", gate)

    def price_of(self, zone, price):
        """The decision at a price of a zone, or None where it isn't within the box."""
        is_there = zone in self.low and self.low[zone] <= price < self.high[zone]
        return ("price", zone, price) if is_there else None

    def leaf_holds(self, kind, fields, word, cutoff):
        if self.is_void or kind == "none":
            return self.is_void and kind == "none"
        if kind == "cut":
            return "" not in fields[1] and self.is_cut(*fields)
        return len(fields[0]) == len(self.market.zones) and self.is_bound(fields[0], word, cutoff)

    def is_bound(self, prices, word, cutoff):
        """Whether the dual value is below the cutoff, or is the cutoff, and no earlier word may have it."""
        value, gains = 0, defaultdict(int)
        for order in self.market.orders:
            term = max(order.side * (prices[order.zone] - order.price) * amount for amount in self.span(order))
            value, gains[order.gate] = value + term, gains[order.gate] + term
        value += sum(max((prices[end] - prices[start]) * flow for flow in span) for start, end, *span in self.flows())
        needed = [gate in self.open or gains[gate] > 0 for gate in range(len(self.market.group))]
        return value < cutoff or (value == cutoff and needed >= word)

    def is_cut(self, side, zones):
        least = most = out = into = 0
        for order in self.market.orders:
            if order.zone in zones:
                put = sorted(order.side * amount for amount in self.span(order))
                least, most = least + put[0], most + put[1]
        for start, end, low, high in self.flows():
            if (start in zones) != (end in zones):
                out += high if start in zones else -low
                into += -low if start in zones else high
        return least > out if side == "out" else most < -into


def reach_faults(market, items, word, cutoff, budget):
    """Of the second form: 9 where the shape fails anywhere, 10 where a leaf doesn't hold."""
    waiting, faults = [[]], set()
    for kind, *fields in items:
        if not waiting:
            return {9}
        decisions = waiting.pop()
        state = State(market, decisions)
        if kind not in ("branch", "price"):
            if not state.leaf_holds(kind, fields, word, cutoff):
                faults.add(10)
            continue
        decided = state.gate_of(*fields) if kind == "branch" else state.price_of(*fields)
        if state.is_void or decided is None:
            return {9}
        waiting += [[*decisions, (*decided, True)], [*decisions, (*decided, False)]]
    return {9} if waiting or len(items) > budget else faults
