#!/usr/bin/env python3
"""Measures the page of a day as great as days may be: `benchmark.py [RUNS [ZONES [BIDS]]]`.

BIDS are those of a quarter hour. It prints how long `show` takes and with what memory, how large the page is, and how
long chromium takes to draw it, to draw other runs, and with what memory. It is run by hand, on a machine that does
nothing else. README.md has what was measured.
"""
import os
import resource
import subprocess
import sys
import tempfile
import time

from browser import Browser
from days import VIEWER
from great_day import make


def measure_show(folder, page):
    """Prints what `show` takes, and writes the page."""
    start = time.monotonic()
    with open(page, "wb") as text:
        subprocess.run([sys.executable, os.path.join(VIEWER, "show"), folder], stdout=text, check=True)
    memory = resource.getrusage(resource.RUSAGE_CHILDREN).ru_maxrss // 1024
    print(f"show: {time.monotonic() - start:.1f} s, {memory} MB; the page has {os.path.getsize(page) / 1e6:.1f} MB")


def measure_browser(page, runs):
    """Prints what chromium takes."""
    browser = Browser()
    try:
        for _ in range(3):
            print(f"opened: drawn after {browser.open(page):.2f} s, {browser.memory()} MB")
        for run in {1 + runs // 2, min(runs, 7), max(1, runs - 7)}:
            start = time.monotonic()
            browser.run("location.hash = arguments[0]", f"#run={run}")
            browser.drawn(run)
            print(f"run {run}: drawn after {time.monotonic() - start:.2f} s, {browser.memory()} MB")
    finally:
        browser.close()


def main(words):
    sizes = [int(word) for word in words]
    with tempfile.TemporaryDirectory(prefix="mari-viewer-") as folder:
        make(folder, *sizes)
        page = os.path.join(folder, "day.html")
        measure_show(folder, page)
        measure_browser(page, sizes[0] if sizes else 1000)


if __name__ == "__main__":
    main(sys.argv[1:])
