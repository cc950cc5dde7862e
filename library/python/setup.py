"""Puts libcapkit into the wheel. What else is known of the package is in pyproject.toml.

The libraries are those in this file's folder, as in a source package, or those that `make` in library/ builds.
"""
import pathlib
import re
import shutil
import sys

from setuptools import Distribution, setup
from setuptools.command.build_py import build_py

try:
    from setuptools.command.bdist_wheel import bdist_wheel
except ImportError:
    from wheel.bdist_wheel import bdist_wheel

HERE = pathlib.Path(__file__).resolve().parent
VERSION = re.search('__version__ = "(.*)"', (HERE / "src/capkit/__init__.py").read_text())[1]


class BuildWithLibrary(build_py):
    """Copies the libraries next to the modules."""

    def run(self):
        super().run()
        for name in ("libcapkit_batch.so", "libcapkit.so.0"):
            places = HERE / name, HERE.parent / "out" / name
            library = next(filter(pathlib.Path.is_file, places), None)
            if library is None:
                sys.exit(f"capkit: there is no {name}: `make` in the folder library/ builds it")
            if not self.editable_mode:
                shutil.copy(library, pathlib.Path(self.build_lib, "capkit", name))


class PlatformDistribution(Distribution):
    """It isn't the same on all platforms, though no module is compiled."""

    def has_ext_modules(self):
        return True


class PlatformWheel(bdist_wheel):
    """A wheel for any Python 3, of the platform that the library was built for."""

    def get_tag(self):
        return ("py3", "none", super().get_tag()[2])


setup(
    version=VERSION,
    distclass=PlatformDistribution,
    cmdclass={"build_py": BuildWithLibrary, "bdist_wheel": PlatformWheel},
)
