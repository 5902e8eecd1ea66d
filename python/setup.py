"""Puts the repository's shipped programs into a wheel, where they are the manifest's and the machine can run them.

All else stands in pyproject.toml. A wheel without a program is one for any machine.
"""

import hashlib
import platform
import shutil
from pathlib import Path

from setuptools import Distribution, setup
from setuptools.command.build_py import build_py
from setuptools.command.sdist import sdist

try:
    from setuptools.command.bdist_wheel import bdist_wheel
except ImportError:
    from wheel.bdist_wheel import bdist_wheel

HERE = Path(__file__).resolve().parent
RELEASE = next((place for place in (HERE / "release", HERE.parent / "release") if place.is_dir()), HERE)
"""The shipped programs and their manifest: in a source distribution, or in the repository."""
PROGRAMS = {"mari": "mari", "reach": "mari_reach"}
"""The names of the programs in a wheel, and in that folder."""


def shipped():
    """By their names in a wheel the programs that are there, for this kind of machine, and that the manifest names."""
    manifest = RELEASE / "manifest"
    if not manifest.is_file() or (platform.system(), platform.machine()) != ("Linux", "x86_64"):
        return {}
    wanted = dict(line.rsplit(" ", 1) for line in manifest.read_text().splitlines() if " " in line)
    there = {name: RELEASE / file for name, file in PROGRAMS.items() if (RELEASE / file).is_file()}
    return {
        name: program
        for name, program in there.items()
        if hashlib.sha256(program.read_bytes()).hexdigest() == wanted.get(f"program {program.name}")
    }


class BuildWithProgram(build_py):
    """Copies the programs beside the modules."""

    def run(self):
        """Builds as always, and then copies."""
        super().run()
        if getattr(self, "editable_mode", False):
            return
        for name, program in shipped().items():
            place = Path(self.build_lib) / "mari" / "_program" / name
            place.parent.mkdir(parents=True, exist_ok=True)
            shutil.copyfile(program, place)
            place.chmod(0o755)


class SourcesWithProgram(sdist):
    """Takes the programs and their manifest along, since a wheel is also made of the source distribution."""

    def make_release_tree(self, base_dir, files):
        """Makes the tree as always, and then copies."""
        super().make_release_tree(base_dir, files)
        if shipped():
            place = Path(base_dir) / "release"
            place.mkdir()
            for file in (*shipped().values(), RELEASE / "manifest"):
                shutil.copy(file, place / file.name)


class OfMachine(Distribution):
    """A wheel with a program is of one machine."""

    def has_ext_modules(self):
        """As one with a compiled module would be."""
        return bool(shipped()) or super().has_ext_modules()


class WheelOfMachine(bdist_wheel):
    """Names the machine and the C library that the program needs."""

    def get_tag(self):
        """Any Python 3, and Linux on x86-64 with glibc 2.34."""
        return ("py3", "none", "manylinux_2_34_x86_64") if shipped() else super().get_tag()


setup(
    distclass=OfMachine,
    cmdclass={"build_py": BuildWithProgram, "sdist": SourcesWithProgram, "bdist_wheel": WheelOfMachine},
)
