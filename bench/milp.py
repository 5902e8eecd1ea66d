#!/usr/bin/python3
"""The runs of a folder as mixed-integer programs, solved by a solver of the field.

usage: /usr/bin/python3 bench/milp.py SOLVER FOLDER [--seconds N] [--times]

SOLVER is highs (by scipy), cuts (HiGHS too, see below), cbc, glpk or lp_solve. It prints for each run `run R welfare W`
in quarter-cents, or `run R unknown` where the solver didn't end in time, and last `seconds S`: the processor time of
the solvers alone, without reading and without the making of the models; with --times each run's line ends with its own
seconds. The welfare is summed in whole numbers over the
quantities that the solver gives.

With its gates decided a run is a flow problem, so quantities and flows are whole at the vertices and only gates need
integer columns. Prices are consistent with an activation exactly where they are dual optimal for it and no open gate
loses, so one row, the primal value at least the dual one, says that there are such prices. Only comparisons of prices
matter to it; so in these rows the k-th least price stands as the number k, which keeps big M small, and the objective
alone has true cents. `cuts` leaves the prices out, tests what it finds in whole numbers, forbids that all gates of an
inadmissible word are open together, and solves again.
"""

import argparse
import os
import pathlib
import re
import resource
import subprocess
import sys
import tempfile
import time
from dataclasses import dataclass, field

sys.path.insert(0, str(pathlib.Path(__file__).resolve().parent.parent / "python/src"))

from mari import Folder  # noqa: E402
from mari.availability import Offers  # noqa: E402
from mari.units import cents  # noqa: E402

CAP = 9_999_900
INFINITE = float("inf")


@dataclass
class Order:
    zone: int
    side: int  # 1 injects, -1 withdraws
    price: int
    greatest: int
    least: int = 0
    gate: int | None = None

    @property
    def is_wanted(self):
        """Whether it runs at any price: an inelastic demand. Such an order is written by what it misses."""
        return self.gate is None and self.price == -self.side * CAP


@dataclass
class Market:
    run: int
    zones: int
    borders: list
    orders: list = field(default_factory=list)
    groups: dict = field(default_factory=dict)  # a group's gates
    parents: dict = field(default_factory=dict)  # a gate's parent
    gates: list = field(default_factory=list)  # the order of each gate


def markets_of(path):
    """The market of each run: scheduled ones, one a quarter, without links across quarters."""
    folder = Folder.read(path)
    offers, limits = Offers(folder), folder.limits_by_run()
    zones = {row.zone: place for place, row in enumerate(folder.zones)}
    pairs = [(zones[row.from_zone], zones[row.to_zone]) for row in folder.borders]
    for run in folder.runs:
        borders = [(*pair, *both) for pair, both in zip(pairs, limits[run.run])]
        market, gate_of = Market(run.run, len(zones), borders), {}
        for bid in offers.of_quarter[run.quarter]:
            order = Order(zones[bid.zone], bid.sign, cents(bid.price), bid.greatest)
            if bid.id in offers.gated:
                order.gate = gate_of[bid.id] = len(market.gates)
                order.least = offers.least(bid)
                market.gates.append(order)
                if bid.id in offers.group_of:
                    market.groups.setdefault(offers.group_of[bid.id], []).append(order.gate)
                if bid.id in offers.parent_of:
                    market.parents[order.gate] = gate_of[offers.parent_of[bid.id]]
            market.orders.append(order)
        for demand in (demand for demand in folder.demands if demand.run == run.run):
            side = 1 if demand.mw < 0 else -1
            price = -side * CAP if demand.price is None else cents(demand.price)
            market.orders.append(Order(zones[demand.zone], side, price, abs(demand.mw)))
        yield market


class Model:
    """Columns (low, high, cost, whole) and rows (terms, low, high), to be solved for the least cost."""

    def __init__(self):
        self.columns, self.rows = [], []

    def column(self, low, high, cost=0, is_whole=False):
        self.columns.append((low, high, cost, is_whole))
        return len(self.columns) - 1

    def row(self, terms, low=-INFINITE, high=INFINITE):
        self.rows.append((terms, low, high))

    def mps(self):
        """Fixed MPS, which cbc, glpsol and lp_solve read alike."""
        entries = [[] for _ in self.columns]
        for place, (terms, _, _) in enumerate(self.rows):
            for column, number in terms:
                entries[column].append((f"r{place}", number))
        lines = ["NAME          run", "ROWS", " N  cost"]
        lines += [f" {'E' if low == high else 'L' if low == -INFINITE else 'G'}  r{place}" for place, (_, low, high) in enumerate(self.rows)]
        lines.append("COLUMNS")
        for is_whole in (False, True):
            if is_whole:
                lines.append("    M1        'MARKER'                 'INTORG'")
            for place, (_, _, cost, whole) in enumerate(self.columns):
                if whole == is_whole:
                    lines += [f"    {f'x{place}':8}  {row:8}  {number}" for row, number in [("cost", cost), *entries[place]]]
            if is_whole:
                lines.append("    M2        'MARKER'                 'INTEND'")
        lines.append("RHS")
        lines += [f"    rhs       {f'r{place}':8}  {high if low == -INFINITE else low}" for place, (_, low, high) in enumerate(self.rows)]
        lines.append("BOUNDS")
        for place, (low, high, _, _) in enumerate(self.columns):
            lines += [f" LO bnd       {f'x{place}':8}  {low}", f" UP bnd       {f'x{place}':8}  {high}"]
        return "\n".join(lines + ["ENDATA", ""])


class Clearing(Model):
    """The model of a market, without prices, or with its gates decided."""

    def __init__(self, market, word=None):
        super().__init__()
        self.market = market
        self.gates = [self.column(0, 1, is_whole=True) for _ in market.gates] if word is None else []
        balance, wanted = [[] for _ in range(market.zones)], [0] * market.zones
        self.amounts = []
        for order in market.orders:
            low, high = (order.least, order.greatest) if word and order.gate is not None and word[order.gate] else (0, order.greatest)
            if word is not None and order.gate is not None and not word[order.gate]:
                high = 0
            sign = -order.side if order.is_wanted else order.side
            amount = self.column(low, high, sign * order.price)
            if order.is_wanted:
                wanted[order.zone] -= order.side * order.greatest
            if self.gates and order.gate is not None:
                gate = self.gates[order.gate]
                self.row([(amount, 1), (gate, -order.least)], low=0)
                self.row([(amount, 1), (gate, -order.greatest)], high=0)
            balance[order.zone].append((amount, sign))
            self.amounts.append(amount)
        self.flows = [self.column(-back, limit) for _, _, limit, back in market.borders]
        for flow, (a, b, _, _) in zip(self.flows, market.borders):
            balance[a].append((flow, -1))
            balance[b].append((flow, 1))
        for zone, terms in enumerate(balance):
            self.row(terms, wanted[zone], wanted[zone])
        if self.gates:
            for child, parent in market.parents.items():
                self.row([(self.gates[child], 1), (self.gates[parent], -1)], high=0)
            for members in market.groups.values():
                self.row([(self.gates[gate], 1) for gate in members], high=1)

    def with_prices(self):
        """The rows that say: some prices are consistent with the activation."""
        levels = sorted({-CAP, CAP} | {order.price for order in self.market.orders})
        rank = {price: place for place, price in enumerate(levels)}
        top = len(levels) - 1
        prices = [self.column(0, top) for _ in range(self.market.zones)]
        gap, missed = [], 0  # the primal value less the dual one, in ranks
        for order, amount in zip(self.market.orders, self.amounts):
            side, price, own = order.side, prices[order.zone], rank[order.price]
            gap.append((amount, side * own if order.is_wanted else -side * own))
            missed += side * own * order.greatest if order.is_wanted else 0
            most = top - own if side > 0 else own
            surplus = self.column(0, most)
            gap.append((surplus, -order.greatest))
            if order.gate is None:
                self.row([(surplus, 1), (price, -side)], low=-side * own)
                continue
            gate, least = self.gates[order.gate], own if side > 0 else top - own
            self.row([(surplus, 1), (price, -side), (gate, -most)], low=-side * own - most)
            self.row([(price, side), (gate, -least)], low=side * own - least)
        for a, b, limit, back in self.market.borders:
            for room, low, high in ((limit, a, b), (back, b, a)):
                rent = self.column(0, top)
                self.row([(rent, 1), (prices[high], -1), (prices[low], 1)], low=0)
                gap.append((rent, -room))
        self.row(gap, low=missed)
        return self

    def quantities(self, values):
        """The whole quantities and flows of a solution."""
        amounts = [round(values[amount]) for amount in self.amounts]
        runs = [order.greatest - amount if order.is_wanted else amount for order, amount in zip(self.market.orders, amounts)]
        return runs, [round(values[flow]) for flow in self.flows]


def welfare(market, runs):
    return sum(-order.side * order.price * amount for order, amount in zip(market.orders, runs))


def has_prices(market, runs, flows):
    """Whether some prices are consistent, in whole numbers."""
    least, greatest = [-CAP] * market.zones, [CAP] * market.zones
    for order, amount in zip(market.orders, runs):
        if order.gate is not None and amount == 0:
            continue
        ends = (order.gate is not None or amount > 0, amount < order.greatest)
        is_low, is_high = ends if order.side > 0 else ends[::-1]
        least[order.zone] = max(least[order.zone], order.price if is_low else -CAP)
        greatest[order.zone] = min(greatest[order.zone], order.price if is_high else CAP)
    for _ in range(market.zones):
        for (a, b, limit, back), flow in zip(market.borders, flows):
            least[a] = max(least[a], least[b] if flow < limit else -CAP)
            least[b] = max(least[b], least[a] if flow > -back else -CAP)
    return all(low <= high for low, high in zip(least, greatest))


# ---- the solvers: each takes a model and seconds, and gives the columns' values, or None, and the processor seconds


def highs(model, seconds):
    import numpy as np
    import scipy.sparse
    from scipy.optimize import Bounds, LinearConstraint, milp

    low, high, cost, whole = map(np.array, zip(*model.columns))
    entries = [(place, column, number) for place, (terms, _, _) in enumerate(model.rows) for column, number in terms]
    rows, columns, numbers = zip(*entries)
    matrix = scipy.sparse.csr_matrix((np.array(numbers, float), (rows, columns)), shape=(len(model.rows), len(model.columns)))
    limits = LinearConstraint(matrix, [row[1] for row in model.rows], [row[2] for row in model.rows])
    options = {"time_limit": seconds, "mip_rel_gap": 0.0, "presolve": bool(whole.any())}
    began = time.process_time()
    found = milp(cost.astype(float), integrality=whole.astype(int), bounds=Bounds(low, high), constraints=limits, options=options)
    return found.x if found.status == 0 else None, time.process_time() - began


def children_seconds():
    used = resource.getrusage(resource.RUSAGE_CHILDREN)
    return used.ru_utime + used.ru_stime


def command(words, seconds):
    """What a command prints, and its processor time."""
    began = children_seconds()
    try:
        text = subprocess.run(words, stdout=subprocess.PIPE, stderr=subprocess.DEVNULL, text=True, timeout=seconds + 5, check=False).stdout
    except subprocess.TimeoutExpired:
        text = ""
    return text, children_seconds() - began


def of_command(solve):
    """A solver by a command: its time is that of the solving command less that of one that reads alone."""

    def solver(model, seconds):
        with tempfile.TemporaryDirectory() as folder:
            page, answer = os.path.join(folder, "model.mps"), os.path.join(folder, "answer")
            pathlib.Path(page).write_text(model.mps())
            solving, reading, values_of = solve(page, answer, seconds)
            read = command(reading, seconds)[1] if reading else 0
            printed, took = command(solving, seconds)
            text = pathlib.Path(answer).read_text() if os.path.exists(answer) else ""
            found = values_of(printed, text)
        if found is None:
            return None, took
        values = [0.0] * len(model.columns)
        for column, value in found:
            values[int(column)] = float(value)
        return values, max(0.0, took - read)

    return solver


@of_command
def cbc(page, answer, seconds):
    def values_of(_, text):
        return re.findall(r"^\W*\d+\s+x(\d+)\s+(\S+)", text, re.M) if text.startswith("Optimal") else None

    stops = ["-ratio", "0", "-allow", "0", "-sec", str(seconds)]
    return ["cbc", page, *stops, "-solve", "-solution", answer], ["cbc", page, "-quit"], values_of


@of_command
def glpk(page, answer, seconds):
    def values_of(printed, text):
        names = {place: name for place, name in re.findall(r"^\s*(\d+) x(\d+)\b", text, re.M)}
        values = re.findall(r"^\s*\d+ x(\d+)\s+(?:\*|B|NL|NU|NS|NF)?\s*(-?[\d.e+]+)", text, re.M)
        return values if names and "OPTIMAL" in text else None

    return ["glpsol", "--mps", page, "--cuts", "--tmlim", str(seconds), "-o", answer], ["glpsol", "--mps", page, "--check"], values_of


@of_command
def lp_solve(page, _, seconds):
    def values_of(printed, _):
        is_whole = "Actual values of the variables" in printed and "sub-optimal" not in printed
        return re.findall(r"^x(\d+)\s+(\S+)", printed, re.M) if is_whole else None

    stops = ["-e", "1e-7", "-ga", "0", "-gr", "0", "-timeout", str(seconds)]
    return ["lp_solve", "-mps", page, "-min", "-S3", *stops], ["lp_solve", "-mps", page, "-parse", "-S1"], values_of


def by_prices(solve):
    """Solves the model with its prices."""

    def whole(market, seconds):
        model = Clearing(market).with_prices()
        values, took = solve(model, seconds)
        return None if values is None else welfare(market, model.quantities(values)[0]), took

    return whole


def by_cuts(market, seconds):
    """Solves the model without prices, and again without each word whose activation has none.

    Every admissible activation whose gates include those of a cut word has less welfare than was found with that word
    alone, or would show that word's activation to be admissible itself.
    """
    spent, cuts = 0.0, []
    while spent < seconds:
        model = Clearing(market)
        for cut in cuts:
            model.row([(model.gates[gate], 1) for gate in cut], high=len(cut) - 1)
        values, took = highs(model, seconds - spent)
        spent += took
        if values is None:
            return None, spent
        word = [values[gate] > 0.5 for gate in model.gates]
        decided = Clearing(market, word)
        values, took = highs(decided, seconds)
        spent += took
        runs, flows = decided.quantities(values)
        if has_prices(market, runs, flows):
            return welfare(market, runs), spent
        cuts.append([gate for gate, is_open in enumerate(word) if is_open])
    return None, spent


SOLVERS = {"highs": by_prices(highs), "cuts": by_cuts, "cbc": by_prices(cbc), "glpk": by_prices(glpk), "lp_solve": by_prices(lp_solve)}


def main():
    parser = argparse.ArgumentParser(description=__doc__, formatter_class=argparse.RawDescriptionHelpFormatter)
    parser.add_argument("solver", choices=SOLVERS)
    parser.add_argument("folder")
    parser.add_argument("--seconds", type=int, default=60)
    parser.add_argument("--times", action="store_true")
    words = parser.parse_args()
    spent = 0.0
    for market in markets_of(words.folder):
        found, took = SOLVERS[words.solver](market, words.seconds)
        spent += took
        time_of_run = f" seconds {took:.6f}" if words.times else ""
        print(f"run {market.run} " + ("unknown" if found is None else f"welfare {found}") + time_of_run, flush=True)
    print(f"seconds {spent:.6f}")


if __name__ == "__main__":
    main()
