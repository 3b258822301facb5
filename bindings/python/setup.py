"""Builds the package. Where VINJAKWE_LIBRARY names the library's file, a wheel holds it; nothing is written beside the
sources."""
import os
import shutil
import tempfile

from setuptools import Distribution, setup
from setuptools.command.build_py import build_py

try:
    from wheel.bdist_wheel import bdist_wheel
except ImportError:
    from setuptools.command.bdist_wheel import bdist_wheel

library = os.environ.get("VINJAKWE_LIBRARY")
room = tempfile.mkdtemp()


class BuildWithLibrary(build_py):
    def run(self):
        super().run()
        if library:
            shutil.copyfile(library, os.path.join(self.build_lib, "vinjakwe", "libvinjakwe.so.0"))


class WithLibrary(Distribution):
    def has_ext_modules(self):
        return bool(library)


class WheelOfAnyPython(bdist_wheel):
    """A wheel that holds the library is for this kind of machine, but not for one Python."""

    def get_tag(self):
        return ("py3", "none", super().get_tag()[2])


try:
    setup(
        distclass=WithLibrary,
        cmdclass={"build_py": BuildWithLibrary, "bdist_wheel": WheelOfAnyPython},
        options={"build": {"build_base": room}, "bdist": {"bdist_base": room}, "egg_info": {"egg_base": room}},
    )
finally:
    shutil.rmtree(room)
