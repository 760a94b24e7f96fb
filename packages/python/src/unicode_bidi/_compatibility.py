"""For programs and libraries that import ``bidi``, the module of python-bidi."""
from __future__ import annotations

import sys
from importlib.machinery import ModuleSpec
from types import ModuleType

from . import algorithm


def install_as_bidi() -> None:
    """Makes ``import bidi`` and ``import bidi.algorithm`` find this package in this process.

    Call it before the first import of a library that imports ``bidi``. A ``bidi`` that is already imported is replaced
    for later imports, and keeps working where it is in use. Nothing is written to disk.
    """
    bidi = ModuleType("bidi", "python-bidi's names, by unicode_bidi.")
    bidi.__spec__ = ModuleSpec("bidi", None, is_package=True)
    bidi.__path__ = []
    for name in algorithm.__all__:
        setattr(bidi, name, getattr(algorithm, name))
    setattr(bidi, "algorithm", algorithm)
    sys.modules["bidi"] = bidi
    sys.modules["bidi.algorithm"] = algorithm
