"""Makes one package of the module, a mark for type checkers, and the library, which tools/c_library.sh has built before.

The library is the one that STRING_CACHE_LIBRARY names, or else that of the folder `lib` at the top of the repository, or the installed one that
pkg-config knows. Nothing is written beside the sources.
"""

import atexit
import os
import shutil
import subprocess
import tempfile
from pathlib import Path

from setuptools import Distribution, setup
from setuptools.command.build_py import build_py

try:
    from setuptools.command.bdist_wheel import bdist_wheel
except ImportError:  # before setuptools 70.1
    try:
        from wheel.bdist_wheel import bdist_wheel
    except ImportError:
        raise SystemExit("there is neither setuptools 70.1 nor wheel: pip install wheel, or a later setuptools") from None

HERE = Path(__file__).resolve().parent
NAME = "libstring_cache.so"


def installed():
    """The folder of the library that pkg-config knows; one that isn't there where it knows none."""
    try:
        told = subprocess.run(["pkg-config", "--variable=libdir", "string_cache"], capture_output=True, text=True, check=False)
    except OSError:
        return Path("none")
    return Path(told.stdout.strip() or "none")


def library():
    """The path of the library."""
    own = os.environ.get("STRING_CACHE_LIBRARY")
    for path in [Path(own)] if own else [HERE.parents[1] / "lib" / NAME, installed() / NAME]:
        if path.is_file():
            return path
    raise SystemExit(f"there is no {own or NAME}: tools/c_library.sh lib, at the top of the repository, builds it")


class Package(build_py):
    """The package string_cache, of three files."""

    def run(self):
        package = Path(self.build_lib) / "string_cache"
        package.mkdir(parents=True, exist_ok=True)
        shutil.copyfile(HERE / "string_cache.py", package / "__init__.py")
        shutil.copyfile(library(), package / NAME)
        (package / "py.typed").touch()


class Wheel(bdist_wheel):
    """A wheel for each Python 3 of this platform."""

    def finalize_options(self):
        super().finalize_options()
        self.root_is_pure = False

    def get_tag(self):
        return "py3", "none", super().get_tag()[2]


class OfPlatform(Distribution):
    """Has a file for one platform, which no extension module is."""

    def has_ext_modules(self):
        return True


room = tempfile.mkdtemp(prefix="string-cache-")
atexit.register(shutil.rmtree, room, ignore_errors=True)
setup(
    packages=["string_cache"],
    package_dir={"string_cache": "."},
    distclass=OfPlatform,
    cmdclass={"build_py": Package, "bdist_wheel": Wheel},
    options={"build": {"build_base": room}, "egg_info": {"egg_base": room}},
)
