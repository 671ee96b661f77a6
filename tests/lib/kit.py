"""The kit's own functions, for what its commands do not do: checks over the libraries that `rt ci` left, and programs
with no proof."""

import os
import sys
from importlib.machinery import SourceFileLoader
from importlib.util import module_from_spec, spec_from_loader
from pathlib import Path
from subprocess import check_output
from types import ModuleType

# The memory of a check, in bytes. It is half of what rt sets aside for one.
EACH = 4_000_000_000


def folder_of_kit() -> Path:
    return Path(check_output(["rt", "doc"], text=True).strip()).parent


def functions_of_kit() -> ModuleType:
    """The kit's script `rt`, with `rtlib` in it."""
    loader = SourceFileLoader("rt", str(folder_of_kit() / "bin" / "rt"))
    rt = sys.modules["rt"] = module_from_spec(spec_from_loader("rt", loader))
    loader.exec_module(rt)
    return rt


def lanes(rt: ModuleType) -> int:
    """How many checks are made side by side: RT_JOBS, or else one per processor that has memory for it. A container
    may have fewer than its machine, and less."""
    asked = os.environ.get("RT_JOBS", "")
    return asked.isdecimal() and int(asked) or max(1, min(rt.processors(), rt.free() // EACH))
