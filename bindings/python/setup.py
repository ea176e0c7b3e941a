"""Puts the shared library into the wheel, beside the module. It is the one in the folder that MAKHNODRI_LIBRARY names, else the one that
`./makhnodri library` writes for this processor in the repository. The wheel is then for the processor of that library, which its head tells, and for any
Python 3. Nothing is left in this folder: what setuptools works with stands in a folder that goes with it."""

import atexit
import os
import pathlib
import platform
import re
import shutil
import sys
import tempfile

from setuptools import Distribution, setup
from setuptools.command.build_py import build_py

try:
    from setuptools.command.bdist_wheel import bdist_wheel
except ImportError:  # setuptools before 70.1
    from wheel.bdist_wheel import bdist_wheel

HERE = pathlib.Path(__file__).resolve().parent
PROCESSORS = {62: "x86_64", 183: "aarch64"}  # by the number in the head of a library


def version():
    return re.search(r'^VERSION = "(.*)"$', (HERE / "makhnodri/__init__.py").read_text(encoding="utf-8"), re.M).group(1)


def shared_name():
    """The name that the module asks for: below 1.0.0 it has the first two numbers of the version, from then on the first."""
    major, minor, _ = version().split(".")
    return f"libmakhnodri.so.{major if int(major) > 0 else f'{major}.{minor}'}"


def library():
    repository = HERE.parents[1] / "target/library" / platform.machine()
    folder = pathlib.Path(os.environ.get("MAKHNODRI_LIBRARY") or repository)
    found = folder / shared_name()
    if not found.exists():
        sys.exit(
            f"makhnodri: {found} is not there. Run `./makhnodri library` in the repository, which proves it and writes target/library; "
            "or name the folder of a library of this version by MAKHNODRI_LIBRARY."
        )
    return found


def processor(found):
    head = found.read_bytes()[:20]
    number = int.from_bytes(head[18:20], "little") if head[:4] == b"\x7fELF" else 0
    return PROCESSORS.get(number) or sys.exit(f"makhnodri: {found} is for no processor that is known here")


class WithLibrary(build_py):
    def run(self):
        super().run()
        found = library()
        shutil.copyfile(found, pathlib.Path(self.build_lib, "makhnodri", found.name))


class Binary(Distribution):
    def has_ext_modules(self):
        return True  # it stands where what is for one processor stands


class ForProcessor(bdist_wheel):
    def get_tag(self):
        return "py3", "none", f"linux_{processor(library())}"


room = tempfile.mkdtemp()
atexit.register(shutil.rmtree, room, ignore_errors=True)
setup(
    distclass=Binary,
    cmdclass={"build_py": WithLibrary, "bdist_wheel": ForProcessor},
    options={"build": {"build_base": room}, "egg_info": {"egg_base": room}},
)
