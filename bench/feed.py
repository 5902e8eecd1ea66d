#!/usr/bin/env python3
"""Speed and memory of `mari feed` on large publications.

usage: python3 bench/feed.py [PROGRAM] [MEGABYTES]

PROGRAM is the built program, by default crates/mari_app/out/mari_app; the publications have about MEGABYTES, by default
1,000. The first has runs of 64 zones and 4,096 bids with trees of bounds; the second is one block whose tree has 25,000
conflicts of 4,608 orders, which is the greatest that a text may hold but for its last few lines. Each is printed twice,
into a pipe, where the bytes are counted, and into /dev/null, where nothing but the program works. Prints the MB read and
printed, and of each way the processor seconds, the MB read in a processor second, and the peak memory.
It is no test: nothing fails where a machine is slow or busy.
"""

import os
import pathlib
import subprocess
import sys
import tempfile

TOP = pathlib.Path(__file__).resolve().parent.parent
ZONES = [f"ZONE{number:04}" for number in range(64)]
HEAD = "mari 1 2025-03-12 96 50000\n"
TOTALS = "".join(f"total-operator {zone} 0.0000 0.0000 0.0000\n" for zone in ZONES)


def block(run, bids, demands, items):
    """The lines of a published run with this tree."""
    quarter = (run - 1) % 96 + 1
    yield f"run {run} {quarter} scheduled published\nwelfare {run}00000000\n"
    for zone in ZONES:
        yield f"zone {zone} 50.25 40.00 60.50 1\n"
    for place in range(bids):
        yield f"bid BID-{run:04}-{place:04} {place % 1000}\n"
    for place in range(1, demands + 1):
        yield f"demand {place} {place}\n"
    yield f"tree {len(items)}\n"
    yield from items
    for zone in ZONES:
        yield f"operator {zone} 0.0000 0.0000 0.0000\n"
    yield f"end {run}\n"


def many_runs(path, size):
    """A publication of about this number of bytes, of runs whose trees have bounds."""
    bound = "bound " + " ".join(f"{40 + zone}.25" for zone in range(64)) + "\n"
    leaves = min(25_000, max(1, (size // 960 - 90_000) // (len(bound) + 7)))
    items = ["branch\n"] * (leaves - 1) + [bound] * leaves
    with open(path, "w", encoding="ascii") as text:
        text.write(HEAD)
        for run in range(1, 961):
            text.writelines(block(run, 4096, 512, items))
        text.write(TOTALS + "done 960 0\n")


def one_block(path):
    """A publication of one block with 25,000 conflicts."""
    zones = " ".join(str(zone) for zone in range(1, 65))
    prices = " ".join(f"{40 + zone}.25" for zone in range(64))
    flows = " ".join(["-199"] * 256)
    mws = " ".join(str(1000 + place % 9000) for place in range(4608))
    conflict = f"conflict {zones}\nat {prices}\nflows {flows}\nmws {mws}\n"
    items = ["branch\n"] * 24_999 + [conflict] * 25_000
    with open(path, "w", encoding="ascii") as text:
        text.write(HEAD)
        text.writelines(block(1, 4096, 512, items))
        text.write(TOTALS + "done 1 0\n")


def printed_bytes(stream):
    """How many bytes come, up to the end."""
    count = 0
    while piece := stream.read(1 << 20):
        count += len(piece)
    return count


def measure(program, name, folder):
    """Prints a row for each way of one folder."""
    size = (folder / "publication.txt").stat().st_size
    for way, output in (("a pipe", subprocess.PIPE), ("nothing", subprocess.DEVNULL)):
        sizes = ("", "", "")
        with subprocess.Popen([program, "feed", str(folder)], stdout=output) as running:
            if running.stdout:
                sizes = (name, f"{size / 1e6:,.0f}", f"{printed_bytes(running.stdout) / 1e6:,.0f}")
            _, status, used = os.wait4(running.pid, 0)
            running.returncode = os.waitstatus_to_exitcode(status)
        assert running.returncode == 0, (name, running.returncode)
        processor = used.ru_utime + used.ru_stime
        cells = [*sizes, way, f"{processor:.1f}", f"{size / processor / 1e6:.0f}", f"{used.ru_maxrss / 1000:,.0f}"]
        print("| " + " | ".join(cells) + " |", flush=True)


def main():
    words = [word for word in sys.argv[1:] if not word.isdigit()]
    sizes = [int(word) for word in sys.argv[1:] if word.isdigit()]
    program = words[0] if words else str(TOP / "crates/mari_app/out/mari_app")
    size = (sizes[0] if sizes else 1000) * 1_000_000
    print("| publication | read, MB | printed, MB | into | processor s | MB read in a processor s | peak MB |")
    print("|---|---|---|---|---|---|---|")
    with tempfile.TemporaryDirectory(prefix="mari-feed-") as room:
        folder = pathlib.Path(room)
        many_runs(folder / "publication.txt", size)
        measure(program, "960 runs of 64 zones and 4,096 bids, with bounds", folder)
        one_block(folder / "publication.txt")
        measure(program, "one block, a tree of 25,000 conflicts of 4,608 orders", folder)


if __name__ == "__main__":
    main()
