"""Builds a wheel that carries the shared library: what CAMLHEAP_LIBRARY names, or that of `make -C library`. Without one the
module looks for an installed library where it is imported."""
import os
import shutil

from setuptools import Distribution, setup
from setuptools.command.build_py import build_py

HERE = os.path.dirname(os.path.abspath(__file__))
LIBRARY = os.environ.get("CAMLHEAP_LIBRARY", f"{HERE}/../out/libcamlheap.so")


class WithLibrary(build_py):
    """The module's files, and the library beside them."""

    def run(self):
        super().run()
        if os.path.exists(LIBRARY):
            shutil.copy2(LIBRARY, os.path.join(self.build_lib, "camlheap", "libcamlheap.so"))


class OfOneSystem(Distribution):
    """A wheel with a shared library fits one kind of system."""

    def has_ext_modules(self):
        return os.path.exists(LIBRARY)


setup(packages=["camlheap"], package_data={"camlheap": ["py.typed"]}, cmdclass={"build_py": WithLibrary}, distclass=OfOneSystem)
