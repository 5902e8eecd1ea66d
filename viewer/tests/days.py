"""Days to show: the examples and an invented day, cleared by the program."""
import importlib.machinery
import importlib.util
import os
import shutil
import subprocess
import sys
import tempfile

HERE = os.path.dirname(os.path.abspath(__file__))
VIEWER = os.path.dirname(HERE)
TOP = os.path.dirname(VIEWER)
BUILT = os.path.join(TOP, "crates", "mari_app", "out", "mari_app")
SHIPPED = os.path.join(TOP, "release", "mari")
PROGRAM = os.environ.get("MARI") or (BUILT if os.access(BUILT, os.X_OK) else SHIPPED)
REACH_BUILT = os.path.join(TOP, "crates", "mari_reach_app", "out", "mari_reach_app")
REACH_SHIPPED = os.path.join(TOP, "release", "mari_reach")
REACH = os.environ.get("REACH") or (REACH_BUILT if os.access(REACH_BUILT, os.X_OK) else REACH_SHIPPED)
sys.path[:0] = [VIEWER, HERE, os.path.join(TOP, "python", "src")]
sys.dont_write_bytecode = True

import fair_day                                          # noqa: E402


def script(name):
    """The script of the viewer with that name, as a module."""
    loader = importlib.machinery.SourceFileLoader(name, os.path.join(VIEWER, name))
    module = importlib.util.module_from_spec(importlib.util.spec_from_loader(name, loader))
    loader.exec_module(module)
    return module


class Days:
    """Cleared days, in a scratch folder that goes with the tests."""

    def __init__(self):
        self.scratch = tempfile.TemporaryDirectory(prefix="mari-viewer-")
        self.cleared, self.pages = {}, {}

    def empty(self):
        return tempfile.mkdtemp(dir=self.scratch.name)

    def market(self, name):
        """A new folder with the market files of an example, or of the invented day `fair`."""
        folder = self.empty()
        if name == "fair":
            fair_day.make(folder, 12)
        else:
            shutil.copytree(os.path.join(TOP, "examples", name), folder, dirs_exist_ok=True)
        return folder

    def day(self, name, reach=False):
        """A new folder with its publication, of the second form by reach.

        Of the invented day some runs are too large for so small a budget: unpublished, or within a gap.
        """
        folder, key = self.market(name), (name, reach)
        if key not in self.cleared:
            options = ["--nodes", "4" if reach else "60"] if name == "fair" else []
            self.cleared[key] = subprocess.run([REACH if reach else PROGRAM, "clear", folder, *options],
                                               stdout=subprocess.PIPE, check=False).stdout
        with open(os.path.join(folder, "publication.txt"), "wb") as publication:
            publication.write(self.cleared[key])
        return folder

    def page_of(self, name, reach=False):
        """The path of a day's page."""
        if (name, reach) not in self.pages:
            self.pages[name, reach], _, _ = self.page(self.day(name, reach))
        return self.pages[name, reach]

    def page(self, folder):
        """(path of the page, exit code, what was said) of `show`."""
        path = os.path.join(folder, "day.html")
        with open(path, "wb") as page:
            done = subprocess.run([sys.executable, os.path.join(VIEWER, "show"), folder], stdout=page,
                                  stderr=subprocess.PIPE, check=False)
        return path, done.returncode, done.stderr.decode()

    def close(self):
        self.scratch.cleanup()


def change(folder, file, old, new):
    """Replaces a text in a file of a folder."""
    path = os.path.join(folder, file)
    with open(path, encoding="utf-8", newline="") as page:
        text = page.read()
    assert old in text, (file, old)
    with open(path, "w", encoding="utf-8", newline="") as page:
        page.write(text.replace(old, new))
