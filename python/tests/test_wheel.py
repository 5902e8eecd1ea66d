"""A wheel that is made in a clone has the shipped programs in it."""

import hashlib
import importlib.util
import platform
import shutil
import subprocess
import sys
import tempfile
import unittest
import zipfile
from pathlib import Path

PACKAGE = Path(__file__).resolve().parents[1]
RELEASE = PACKAGE.parent / "release"

TOOLS = all(importlib.util.find_spec(name) for name in ("pip", "setuptools", "wheel"))


@unittest.skipUnless(TOOLS, "pip, setuptools or wheel isn't installed")
@unittest.skipIf((platform.system(), platform.machine()) != ("Linux", "x86_64"), "the program isn't for this machine")
class TestWheel(unittest.TestCase):
    def test_programs(self):
        """Their SHA-256 are the manifest's, and the name of the wheel states machine and C library."""
        with tempfile.TemporaryDirectory() as scratch:
            copy = Path(scratch, "mari", "python")
            shutil.copytree(PACKAGE, copy, ignore=shutil.ignore_patterns("build", "*.egg-info", ".*", "__pycache__"))
            shutil.copytree(RELEASE, copy.parent / "release")
            words = ["wheel", "--quiet", "--no-build-isolation", "--no-deps", "--no-index", "-w", scratch, str(copy)]
            subprocess.run([sys.executable, "-m", "pip", *words], check=True, capture_output=True)
            [made] = Path(scratch).glob("*.whl")
            with zipfile.ZipFile(made) as files:
                programs = {name: files.getinfo(f"mari/_program/{name}") for name in ("mari", "reach")}
                found = {name: hashlib.sha256(files.read(program)).hexdigest() for name, program in programs.items()}
        lines = (RELEASE / "manifest").read_text().splitlines()
        manifest = dict(line.split(" ", 1) for line in lines)
        for name, called in (("mari", "mari"), ("reach", "mari_reach")):
            self.assertIn(f"program {called} {found[name]}", lines)
            self.assertEqual(programs[name].external_attr >> 16 & 0o777, 0o755)
        system, machine = manifest["machine"].lower().split()
        library = manifest["glibc"].replace(".", "_")
        self.assertTrue(made.name.endswith(f"-py3-none-many{system}_{library}_{machine}.whl"), made.name)


if __name__ == "__main__":
    unittest.main()
