#!/usr/bin/env python3
"""`mari clear` beside the solvers of the field, on the same folders, and the table of the speed goals.

usage: python3 bench/field.py [PROGRAM] [--repeats N] [--seconds N] [--without-solvers] [--only gated|gateless]

PROGRAM is the built program, by default crates/mari_app/out/mari_app. On Debian the others come by
    apt-get update; apt-get install -y liblemon-dev g++ coinor-cbc glpk-utils lp-solve python3-scipy valgrind
bench/lemon.cpp is built first, and a solver that isn't installed is left out; without valgrind so are the counts of
instructions. The commands run one after the other, one thread each, and the least processor time of the repeats is
printed. A solver has the seconds for each run, 20 without the option; a dash says that it didn't end. With --only it makes
that table alone. It is no test: nothing fails where a machine is slow, but an answer that differs stops it.
"""

import argparse
import os
import pathlib
import re
import shutil
import subprocess
import tempfile

import clock
import folders

HERE = pathlib.Path(__file__).resolve().parent
# Of a copy by `rep movsb`, which is one instruction, valgrind counts each byte; so copies are by 32 bytes at a time.
COPIES = {"GLIBC_TUNABLES": "glibc.cpu.x86_rep_movsb_threshold=1000000000:glibc.cpu.x86_rep_stosb_threshold=1000000000"}
GATED_30 = {"zones": 30, "borders": 60, "bids": 2000, "size": 5, "load": 40}
GATED_64 = {"zones": 64, "borders": 256, "bids": 4096, "demands": 512, "gates": 40, "size": 5, "load": 40}
GATED = {
    "30 zones, 20 gates, a": GATED_30 | {"gates": 20, "seed": 4},
    "30 zones, 20 gates, b": GATED_30 | {"gates": 20, "seed": 6},
    "30 zones, 40 gates, a": GATED_30 | {"gates": 40, "seed": 5},
    "30 zones, 40 gates, b": GATED_30 | {"gates": 40, "seed": 1},
    "30 zones, 60 gates, a": GATED_30 | {"gates": 60, "seed": 3},
    "30 zones, 60 gates, b": GATED_30 | {"gates": 60, "seed": 6},
    "64 zones, 40 gates": GATED_64 | {"seed": 3},
}
GATELESS = {
    "100 bids in 8 zones": {"bids": 100},
    "1,000 bids in 8 zones": {"bids": 1000},
    "4,000 bids in 8 zones": {"bids": 4000},
    "2,000 bids in 30 zones": {"zones": 30, "borders": 60, "bids": 2000},
    "4,096 bids in 64 zones": {"zones": 64, "borders": 256, "bids": 4096},
}
# for each solver the command that must be there, and how it works
SOLVERS = {"highs": "scipy", "cuts": "scipy", "cbc": "cbc", "glpk": "glpsol", "lp_solve": "lp_solve"}
PYTHON = "/usr/bin/python3"


def has(command):
    """Whether a command, or Debian's scipy, is installed."""
    if command == "scipy":
        return subprocess.run([PYTHON, "-c", "import scipy.optimize"], stderr=subprocess.DEVNULL, check=False).returncode == 0
    return shutil.which(command) is not None


def row(*cells):
    return "| " + " | ".join(str(cell) for cell in cells) + " |"


def header(*names):
    return row(*names) + "\n" + "|---" * len(names) + "|"


class Bench:
    """The programs, a scratch folder, and how often each runs."""

    def __init__(self, scratch, words):
        self.scratch, self.mari, self.repeats, self.seconds = scratch, words.program, words.repeats, words.seconds
        self.text = os.path.join(scratch, "text")
        self.lemon = os.path.join(scratch, "lemon")
        for suffix, machine in [("", "native"), (".counted", "x86-64-v3")]:  # valgrind doesn't know every machine
            subprocess.run(["g++", "-std=c++20", "-O2", f"-march={machine}", "-o", self.lemon + suffix, HERE / "lemon.cpp"], check=True)
        self.solvers = [] if words.without_solvers else [name for name, command in SOLVERS.items() if has(command)]

    def folder(self, pages):
        """A new folder of these pages."""
        path = tempfile.mkdtemp(dir=self.scratch)
        folders.write(path, pages)
        return path

    def ran(self, words, pattern, statuses=(0,)):
        """The least time of a command, and the numbers that a pattern finds in what it prints."""
        spent = clock.least_of(self.repeats, words, self.text, statuses)
        return spent, [int(found) for found in re.findall(pattern, pathlib.Path(self.text).read_text(), re.M)]

    def clear(self, folder, *options):
        return self.ran([self.mari, "clear", folder, "--workers", "1", *options], r"^welfare (\d+)", (0, 1))

    def nodes_of_text(self):
        return sum(map(int, re.findall(r"^tree (\d+)", pathlib.Path(self.text).read_text(), re.M)))

    def check(self, folder):
        """The time of the check of what was printed last."""
        shutil.copy(self.text, os.path.join(folder, "publication.txt"))
        return clock.least_of(self.repeats, [self.mari, "check", folder])

    def yardstick(self, folder, *mode):
        """The time of LEMON's program, of its solving alone, and the welfare and the nodes of its runs."""
        spent, welfare = self.ran([self.lemon, *mode, folder], r" welfare (\d+)")
        figures = dict(re.findall(r"(nodes|seconds|least|first) ([\d.e+-]+)", pathlib.Path(self.text).read_text().replace("run ", "\n")))
        return spent, float(figures["seconds"]), welfare, figures

    def instructions(self, words, function=None):
        """How many instructions a command takes, or a function of it with all that it calls."""
        counts = os.path.join(self.scratch, "counts")
        counted = ["valgrind", "--tool=callgrind", f"--callgrind-out-file={counts}", *words]
        subprocess.run(counted, stdout=subprocess.DEVNULL, stderr=subprocess.DEVNULL, check=True, env=os.environ | COPIES)
        printed = subprocess.run(["callgrind_annotate", "--inclusive=yes", "--threshold=100", counts], stdout=subprocess.PIPE, text=True, check=True).stdout
        found = re.search(rf"^ *([\d,]+) .*{function or 'PROGRAM TOTALS'}", printed, re.M)
        return int(found.group(1).replace(",", ""))

    def solver(self, name, folder):
        """What a solver alone takes, in seconds, or none where it didn't end; and the welfare that it finds."""
        words = [PYTHON, str(HERE / "milp.py"), name, folder, "--seconds", str(self.seconds)]
        one = os.environ | {"OMP_NUM_THREADS": "1", "OPENBLAS_NUM_THREADS": "1"}
        text = subprocess.run(words, stdout=subprocess.PIPE, env=one, text=True, check=True).stdout
        welfare = [int(found) for found in re.findall(r" welfare (\d+)", text)]
        return (None if "unknown" in text else float(text.split()[-1])), welfare


def agree(name, found, wanted):
    """Stops where an answer differs from ours. (A solver of floating numbers may be off; that is printed, and no stop.)"""
    if found != wanted:
        raise SystemExit(f"field: on {name} one finds {found}, and mari {wanted}")


def gated(bench):
    """The markets of gates: a table, and for each market its ratios."""
    print(header("market", "mari, s", "nodes", "µs a node", "LEMON, s", "nodes", "µs a node", "node of ours to LEMON's",
                 "least tree, of the first word", *(f"{name}, s" for name in bench.solvers)))
    ratios = {}
    for name, shape in GATED.items():
        folder = bench.folder(folders.market(**shape))
        base, _ = bench.clear(folder, "--nodes", "1")
        spent, welfare = bench.clear(folder, "--nodes", "50000")
        nodes = bench.nodes_of_text()
        _, _, _, figures = bench.yardstick(folder, "--least")
        theirs, seconds, found, counted = bench.yardstick(folder)
        agree(name, found, welfare)
        ours, lemons = (spent.processor - base.processor) / nodes * 1e6, seconds / int(counted["nodes"]) * 1e6
        cells, fastest = [], None
        for solver in bench.solvers:
            took, answer = bench.solver(solver, folder)
            cells.append("-" if took is None else f"{took:.2f}" + ("" if answer == welfare else " (another welfare)"))
            if took is not None and answer == welfare:
                fastest = min(fastest or took, took)
        print(row(name, f"{spent.processor:.3f}", nodes, f"{ours:.0f}", f"{theirs.processor:.3f}", counted["nodes"], f"{lemons:.0f}",
                  f"{ours / lemons:.2f}", f"{figures['least']}, {figures['first']}", *cells), flush=True)
        ratios[name] = (ours / lemons, nodes / int(figures["least"]), nodes / int(figures["first"]), fastest and spent.processor / fastest)
    return ratios


def gateless(bench):
    """The markets without gates: whole processes, and the instructions of the solve: of ours with its price test, of
    LEMON's with its network."""
    print(header("market", "mari, s", "LEMON, s", "solve, instructions", "LEMON's", "ratio"))
    for name, shape in GATELESS.items():
        folder = bench.folder(folders.market(**shape))
        spent, welfare = bench.clear(folder)
        theirs, _, found, _ = bench.yardstick(folder, "--relaxed")
        agree(name, found, welfare)
        cells = ["-"] * 3
        if has("valgrind"):
            words = [bench.mari, "clear", folder, "--workers", "1"]
            ours = sum(bench.instructions(words, name) for name in ("mari_paths::optimum::optimum_from", "mari_node::node::finding_by"))
            lemons, read = (bench.instructions([bench.lemon + ".counted", mode, folder]) for mode in ("--relaxed", "--read"))
            cells = [f"{ours:,}", f"{lemons - read:,}", f"{ours / (lemons - read):.2f}"]
        print(row(name, f"{spent.processor:.4f}", f"{theirs.processor:.4f}", *cells), flush=True)


def whole_day(bench):
    """The ratio of the whole processes on the day that `generate 1` clears."""
    folder = bench.folder(folders.generated(1))
    spent, welfare = bench.clear(folder)
    theirs, _, found, _ = bench.yardstick(folder)
    agree("the generated day", found, welfare)
    print(f"\nThe day of 24 runs that `generate 1` clears: mari {spent.processor:.4f} s, LEMON {theirs.processor:.4f} s, "
          f"ratio {spent.processor / theirs.processor:.1f}; sum {sum(welfare)}.")


def reading(bench):
    """The ratio of the times of reading a day of 409,600 bids."""
    pages = folders.empty_pages() | {"zones.csv": [(f"Z{zone}", f"T{zone % 4}") for zone in range(8)]}
    pages["day.csv"] = [("2025-10-26", '"CET-1CEST,M3.5.0,M10.5.0/3"')]
    for quarter in range(1, 101):
        for place in range(4096):
            name, provider, zone, price = f"q{quarter}b{place}", f"P{place % 10}", f"Z{place % 8}", folders.euro(3000 + place % 9000)
            pages["bids.csv"].append((name, provider, zone, quarter, "up", price, 0, 5 + place % 46, "both"))
    folder = bench.folder(pages)
    spent, _ = bench.clear(folder)
    theirs, _, _, _ = bench.yardstick(folder, "--read")
    print(f"\nReading 409,600 bids: mari {spent.processor:.2f} s and {spent.memory:.0f} MB, a plain reader of std {theirs.processor:.2f} s and "
          f"{theirs.memory:.0f} MB, ratio {spent.processor / theirs.processor:.2f}.")


def checking(bench):
    """The ratios of check to clear: a day of 96 runs, and a run of a thousand nodes."""
    for name, pages in {"a day of 96 runs of 1,000 bids": folders.market(bids=1000, runs=96),
                        "a run of some thousand nodes": folders.market(**GATED["30 zones, 40 gates, b"])}.items():
        folder = bench.folder(pages)
        spent, _ = bench.clear(folder, "--nodes", "50000")
        nodes = bench.nodes_of_text()
        check = bench.check(folder)
        print(f"\nThe check of {name} ({nodes} nodes): {check.processor:.3f} s, its clearing {spent.processor:.3f} s, "
              f"ratio {check.processor / spent.processor:.2f}.")


def largest(bench):
    """The peak memory of a market at its limits with a full budget."""
    folder = bench.folder(folders.market(zones=64, borders=256, bids=4096, gates=512, demands=512, size=5, load=40, seed=3))
    spent = clock.run_once([bench.mari, "clear", folder, "--workers", "1", "--nodes", "50000"])
    print(f"\n64 zones, 256 borders, 4,096 bids, 512 gates, 512 demands, 50,000 nodes: "
          f"{spent.processor:.1f} s, {spent.memory:.0f} MB, status {spent.status}.")


def main():
    parser = argparse.ArgumentParser(description=__doc__, formatter_class=argparse.RawDescriptionHelpFormatter)
    parser.add_argument("program", nargs="?", default=str(HERE.parent / "crates/mari_app/out/mari_app"))
    parser.add_argument("--repeats", type=int, default=5)
    parser.add_argument("--seconds", type=int, default=20)
    parser.add_argument("--without-solvers", action="store_true")
    parser.add_argument("--only", choices=("gated", "gateless"))
    words = parser.parse_args()
    print(clock.machine(), "\n")
    with tempfile.TemporaryDirectory() as scratch:
        bench = Bench(scratch, words)
        if words.only:
            {"gated": gated, "gateless": gateless}[words.only](bench)
            return
        ratios = gated(bench)
        print()
        gateless(bench)
        whole_day(bench)
        reading(bench)
        checking(bench)
        largest(bench)
        names = ["market", "a node, of LEMON's", "nodes, of the least tree", "of that of the first word", "process, of the fastest solver's"]
        print("\n" + header(*names))
        for name, cells in ratios.items():
            print(row(name, *("-" if cell is None else f"{cell:.2f}" for cell in cells)))


if __name__ == "__main__":
    main()
