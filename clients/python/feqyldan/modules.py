"""Modules of other packages, which are imported when they are first needed."""

from __future__ import annotations

import importlib
import sys
from typing import Any


def imported(name: str) -> Any:
    """Returns a module that is in use; None if it wasn't imported, or is still being imported, by
    another thread or by what a signal's handler has interrupted."""
    # None stands for a module that must not be imported.
    module = sys.modules.get(name)
    is_begun = getattr(getattr(module, "__spec__", None), "_initializing", False)
    return None if is_begun else module


def imported_now(name: str) -> Any:
    """Returns a module, after importing it. Raises ImportError if it isn't installed, or if a
    signal's handler has interrupted its import: it has no names until that ends."""
    module = importlib.import_module(name)
    if imported(name) is None:
        raise ImportError(f"{name} was being imported when this signal came: import it before the "
                          "signal's handler is set")
    return module
