"""Builds a wheel for this platform and any Python 3, with the library inside: the file that the environment variable
WAT_LIBRARY names, or else bindings/out/libwat.so."""
import os
import shutil

from setuptools import Distribution, setup
from setuptools.command.build_py import build_py

try:
    from setuptools.command.bdist_wheel import bdist_wheel
except ImportError:  # (setuptools before 70.1)
    from wheel.bdist_wheel import bdist_wheel

BESIDE = os.path.join(os.path.dirname(os.path.abspath(__file__)), "..", "out", "libwat.so")


class BuildWithLibrary(build_py):
    def run(self):
        super().run()
        library = os.environ.get("WAT_LIBRARY", BESIDE)
        if not os.path.isfile(library):
            raise SystemExit(f"{library} is missing: run bindings/build, or set WAT_LIBRARY to the path of libwat.so")
        shutil.copy(library, os.path.join(self.build_lib, "wat", "libwat.so"))


class PlatformWheel(bdist_wheel):
    def get_tag(self):
        return "py3", "none", super().get_tag()[2]


class WithLibrary(Distribution):
    def has_ext_modules(self):
        return True


setup(distclass=WithLibrary, cmdclass={"build_py": BuildWithLibrary, "bdist_wheel": PlatformWheel})
