"""The Rattle kit that this machine has, for the scripts that call its parts by themselves."""

import importlib.machinery
import importlib.util
import shutil
import sys
from pathlib import Path


class NoKit(Exception):
    """There is no kit on PATH."""


class OtherKit(Exception):
    """The kit has another layout than these scripts know."""


def kit_folder():
    found = shutil.which("rt")
    if found is None:
        raise NoKit("the command rt of the Rattle kit is not on PATH")
    return Path(found).resolve().parent.parent


def kit_library(kit):
    """The module in which the kit's own commands find crates, their sources and their words."""
    path = kit / "bin/rtlib.py"
    if not path.is_file():
        raise OtherKit(f"{path} is not there")
    loader = importlib.machinery.SourceFileLoader("rtlib", str(path))
    library = importlib.util.module_from_spec(importlib.util.spec_from_loader("rtlib", loader))
    sys.modules["rtlib"] = library
    sys.dont_write_bytecode = True
    loader.exec_module(library)
    return library
