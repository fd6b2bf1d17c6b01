"""What pyproject.toml cannot say: the declarations are made of the header and the library is taken from the repository, and the wheel is for this
platform and every Python 3."""
from __future__ import annotations

import os
import shutil
import sys
from pathlib import Path

from setuptools import Distribution, setup
from setuptools.command.build_py import build_py
from wheel.bdist_wheel import bdist_wheel

HERE = Path(__file__).resolve().parent
ROOT = HERE.parent
LIBRARY = Path(os.environ.get("SLP_SHARED", ROOT / "target/shared/libslp.so.0"))

sys.path.insert(0, str(HERE))
import declare  # noqa: E402


class Build(build_py):
    """Brings what the package needs into it first."""

    def run(self) -> None:
        if not LIBRARY.exists():
            sys.exit(f"{LIBRARY} is missing: run make in the repository first, or set SLP_SHARED to a libslp.so")
        declare.main(str(ROOT / "include/slp.h"), str(LIBRARY), str(HERE / "slp/_declared.py"))
        shutil.copyfile(LIBRARY, HERE / "slp/libslp.so.0")
        super().run()


class Package(Distribution):
    """A package with a library for this platform."""

    def has_ext_modules(self) -> bool:
        return True


class Wheel(bdist_wheel):
    """No part of it is for one Python alone."""

    def get_tag(self) -> tuple[str, str, str]:
        return "py3", "none", super().get_tag()[2]


for name in ("LICENSE", "NOTICE"):
    shutil.copyfile(ROOT / name, HERE / name)
setup(distclass=Package, cmdclass={"build_py": Build, "bdist_wheel": Wheel})
