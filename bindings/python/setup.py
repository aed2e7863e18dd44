"""Takes the shared library that PEFIDX_LIBRARY names, where it does, into the package."""

import os

from setuptools import setup
from setuptools.command.build_py import build_py


class WithLibrary(build_py):
    def run(self):
        super().run()
        library = os.environ.get("PEFIDX_LIBRARY")
        if library:
            self.copy_file(library, os.path.join(self.build_lib, "pefidx", "libpefidx.so"))


setup(cmdclass={"build_py": WithLibrary})
