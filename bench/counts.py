#!/usr/bin/env python3
"""Counts of instructions, by valgrind: of a node, of a run without gates, of reading, and of a line of a text.

usage: python3 bench/counts.py [PROGRAM] [--nodes] [--gateless] [--measures]

PROGRAM is the built program, by default crates/mari_app/out/mari_app. On Debian the others come by
    apt-get update; apt-get install -y liblemon-dev g++ valgrind
Without options it makes all tables; --measures (of reading, of a plain run, of growth) needs valgrind alone. A count is the
same for the same program and folder, whatever else the machine does. It is no test: nothing fails where a count is high. Of
a copy by `rep movsb`, which is one instruction, valgrind counts each byte, so all programs are counted with the C library's
copies by 32 bytes at a time.

A node of ours is one examination from the root (`Root::examine_in`) with all that it calls, the mean of all that the search
makes; LEMON's is its search less its reading, by the nodes that it solves. Of a run without gates ours are the solver and
the price test of all examinations (one, since the closed prefix is the root there), and LEMON's its program less its
reading. A run by itself is the command on a folder with the run,
less that on the same folder without.
"""

import argparse
import functools
import math
import os
import random
import re
import shutil
import subprocess
import tempfile

import field
import folders

HERE = field.HERE
NODES = {name: field.GATED[name] for name in ("30 zones, 20 gates, a", "30 zones, 40 gates, a", "30 zones, 60 gates, a", "64 zones, 40 gates")}
NODES["8 zones, 24 gates, 500 orders a zone"] = {"bids": 4000, "gates": 24, "size": 20, "load": 40, "seed": 2}


class Counter:
    """The programs and a scratch folder."""

    def __init__(self, scratch, program):
        self.scratch, self.mari = scratch, program

    @functools.cached_property
    def lemon(self):
        """LEMON's program, built where it is asked for."""
        path = os.path.join(self.scratch, "lemon")
        subprocess.run(["g++", "-std=c++20", "-O2", "-march=x86-64-v3", "-o", path, HERE / "lemon.cpp"], check=True)
        return path

    def folder(self, pages):
        path = tempfile.mkdtemp(dir=self.scratch)
        folders.write(path, pages)
        return path

    def count(self, words):
        """The instructions of a command, what it prints, and the profile's file."""
        profile = os.path.join(self.scratch, "profile")
        counted = subprocess.run(["valgrind", "--tool=callgrind", f"--callgrind-out-file={profile}", *words],
                                 stdout=subprocess.PIPE, stderr=subprocess.PIPE, text=True, check=False, env=os.environ | field.COPIES)
        assert counted.returncode in (0, 1), counted.stderr
        return int(re.search(r"Collected : (\d+)", counted.stderr).group(1)), counted.stdout, profile

    def clear(self, folder, *options):
        return self.count([self.mari, "clear", folder, "--workers", "1", *options])

    def of_function(self, profile, name):
        """The instructions of a function with all that it calls, and how often it was called."""
        printed = subprocess.run(["callgrind_annotate", "--inclusive=yes", "--tree=caller", "--threshold=100", profile],
                              stdout=subprocess.PIPE, text=True, check=True).stdout
        found = re.search(rf"^ *([\d,]+) \(.*\*  .*{re.escape(name)}\b", printed, re.M)
        above = printed[:found.start()].rsplit("\n\n", 1)[-1]
        calls = sum(int(times.replace(",", "")) for times in re.findall(r" \(([\d,]+)x\)", above))
        return int(found.group(1).replace(",", "")), calls


def nodes(counter):
    print(field.header("a node, mean of all examinations", "mari", "LEMON's", "ratio"))
    for name, shape in NODES.items():
        folder = counter.folder(folders.market(**shape))
        _, _, profile = counter.clear(folder, "--nodes", "50000")
        spent, calls = counter.of_function(profile, "mari_workers::root::Root::examine_in")
        ours = spent / calls
        whole, text, _ = counter.count([counter.lemon, folder])
        read, _, _ = counter.count([counter.lemon, "--read", folder])
        theirs = (whole - read) / int(re.search(r"nodes (\d+)", text).group(1))
        print(field.row(name, f"{ours:,.0f}", f"{theirs:,.0f}", f"{ours / theirs:.3f}"), flush=True)


def narrower(pages, part):
    """The same pages where borders carry a part of what they did."""
    pages["borders.csv"] = [(a, b, int(limit * part), int(back * part)) for a, b, limit, back in pages["borders.csv"]]
    return pages


def gateless(counter):
    print(field.header("a run without gates, of LEMON's", "borders as made", "a tenth", "nothing"))
    for name, shape in field.GATELESS.items():
        cells = []
        for part in (1, 0.1, 0):
            folder = counter.folder(narrower(folders.market(**shape), part))
            _, _, profile = counter.clear(folder)
            ours = sum(counter.of_function(profile, name)[0] for name in ("mari_paths::optimum::optimum_from", "mari_node::node::finding_by"))
            solved, _, _ = counter.count([counter.lemon, "--relaxed", folder])
            read, _, _ = counter.count([counter.lemon, "--read", folder])
            cells.append(f"{ours / (solved - read):.2f}")
        print(field.row(name, *cells), flush=True)


def apart(bids):
    """Two zones that can't trade, with prices far apart, each short of half of what its bids offer."""
    dice = random.Random(1)
    pages = folders.empty_pages()
    pages["zones.csv"] = [("Z0", "T0"), ("Z1", "T1")]
    pages["runs.csv"] = [(1, 1, "scheduled", "50.00")]
    offered = [0, 0]
    for place in range(bids):
        zone, greatest = place % 2, dice.randint(5, 50)
        cents = dice.randrange(1000, 4000) + 7000 * zone
        offered[zone] += greatest
        pages["bids.csv"].append((f"b{place}", "P0", f"Z{zone}", 1, "up", folders.euro(cents), 0, greatest, "both"))
    pages["demands.csv"] = [(1, f"Z{zone}", offered[zone] // 2, "") for zone in (0, 1)]
    return pages


def without_run(pages):
    return pages | {"runs.csv": [], "demands.csv": []}


def growth(counter):
    alone = []
    for bids in (2048, 4096):
        pages = apart(bids)
        alone.append(counter.clear(counter.folder(pages))[0] - counter.clear(counter.folder(without_run(pages)))[0])
    return f"{math.log2(alone[1] / alone[0]):.2f}"


def run(counter):
    """A plain run of 4,096 bids over eight zones: what `clear` takes above its pages, and `check` a line of the text."""
    pages = folders.market(bids=4096)
    counts, lines = [], []
    for given in (pages, without_run(pages)):
        folder = counter.folder(given)
        cleared, text, _ = counter.clear(folder)
        with open(os.path.join(folder, "publication.txt"), "w", encoding="ascii") as out:
            out.write(text)
        checked, _, _ = counter.count([counter.mari, "check", folder])
        counts.append((cleared, checked))
        lines.append(text.count("\n"))
    cleared, checked = (counts[0][part] - counts[1][part] for part in (0, 1))
    return f"{cleared / 1e6:.2f}", f"{checked / (lines[0] - lines[1]):.0f}"


def reading(counter):
    pages = folders.empty_pages() | {"zones.csv": [(f"Z{zone}", f"T{zone % 4}") for zone in range(8)]}
    none, _, _ = counter.clear(counter.folder(pages))
    for quarter in range(1, 11):
        for place in range(4096):
            price = folders.euro(3000 + place % 9000)
            pages["bids.csv"].append((f"q{quarter}b{place}", f"P{place % 10}", f"Z{place % 8}", quarter, "up", price, 0, 5 + place % 46, "both"))
    whole, _, _ = counter.clear(counter.folder(pages))
    return f"{(whole - none) / 40960:,.0f}"


def measures(counter):
    print(field.header("measure", ""))
    print(field.row("reading 40,960 bids, instructions a bid", reading(counter)), flush=True)
    cleared, checked = run(counter)
    print(field.row("a plain run of 4,096 bids, `clear` above its pages, million", cleared))
    print(field.row("its `check` above its pages, instructions a line of the text", checked), flush=True)
    print(field.row("growth of a run of two large zones that can't trade, from 2,048 to 4,096 bids, as the exponent of its bids", growth(counter)))


TABLES = {"nodes": nodes, "gateless": gateless, "measures": measures}


def main():
    parser = argparse.ArgumentParser(description=__doc__, formatter_class=argparse.RawDescriptionHelpFormatter)
    parser.add_argument("program", nargs="?", default=str(HERE.parent / "crates/mari_app/out/mari_app"))
    for name in TABLES:
        parser.add_argument(f"--{name}", action="store_true")
    words = vars(parser.parse_args())
    wanted = [name for name in TABLES if words[name]] or list(TABLES)
    scratch = tempfile.mkdtemp()
    try:
        counter = Counter(scratch, words["program"])
        for name in wanted:
            TABLES[name](counter)
            print(flush=True)
    finally:
        shutil.rmtree(scratch)


if __name__ == "__main__":
    main()
