#!/usr/bin/env python3
"""Measures how many days a second tools/days clears, by how many it runs at once.

usage: python3 bench/days.py [DAYS]      1,000 days if not given; MARI names the program, else ./mari

The days are those of `mari generate 1`, `generate 2` and so on: 24 runs of 8 zones and 40 bids. Each number at once
clears its own copy of the folders. What is printed: days at once, seconds, days a second, and the seconds times the days
at once over those of one at a time, which would be 1 with processors that share nothing.
"""

import os
import shutil
import subprocess
import sys
import tempfile
import time
from pathlib import Path

TOP = Path(__file__).resolve().parent.parent


def main():
    count = int(sys.argv[1]) if len(sys.argv) > 1 else 1000
    with tempfile.TemporaryDirectory(prefix="mari-days-") as room:
        days = Path(room, "days")
        for number in range(1, count + 1):
            words = [sys.executable, TOP / "bench/folders.py", days / str(number), "--day", str(number)]
            subprocess.run(words, check=True, stdout=subprocess.DEVNULL)
        print("| at once | s | days a second | of one at a time |\n|---|---|---|---|")
        alone = None
        for at_once in [it for it in (1, 2, 4, 8, 16) if it <= (os.cpu_count() or 1)]:
            copy = Path(room, str(at_once))
            shutil.copytree(days, copy)
            began = time.monotonic()
            words = [TOP / "tools/days", "--jobs", str(at_once), "clear", *sorted(os.listdir(copy))]
            subprocess.run(words, cwd=copy, check=True, stdout=subprocess.DEVNULL)
            seconds = time.monotonic() - began
            alone = alone or seconds
            print(f"| {at_once} | {seconds:.1f} | {count / seconds:.0f} | {seconds * at_once / alone:.2f} |", flush=True)
            shutil.rmtree(copy)


if __name__ == "__main__":
    main()
