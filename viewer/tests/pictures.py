#!/usr/bin/env python3
"""Takes the pictures of README.md anew: the page of examples/eight-zones, light and dark."""
import os

from browser import Browser
from days import TOP, Days

EXAMPLE = "eight-zones"
SIZE = (1280, 1080)


def take_pictures(days, folder):
    """Takes both pictures into a folder, and answers their paths."""
    page = days.page_of(EXAMPLE)
    paths = []
    for scheme in ("light", "dark"):
        browser = Browser(*SIZE, dark=scheme == "dark")
        try:
            browser.open(page, "#zone=DE")
            paths.append(os.path.join(folder, f"day-{scheme}.png"))
            browser.picture(paths[-1])
        finally:
            browser.close()
    return paths


if __name__ == "__main__":
    DAYS = Days()
    print(*take_pictures(DAYS, os.path.join(TOP, "docs", "pictures")), sep="\n")
    DAYS.close()
