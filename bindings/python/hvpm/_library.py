"""Loads libhvpm.so.0.1 from the folder that HVPM_LIB names, or else from this one, where a wheel has it, or
else where the loader finds it, and calls it with numbers that fit."""
from __future__ import annotations

import ctypes
import functools
import os
from typing import Any

from . import _raw

FILE = "libhvpm.so.0.1"
UNSIGNED = (ctypes.c_uint8, ctypes.c_uint16, ctypes.c_uint32, ctypes.c_uint64)


def _open() -> ctypes.CDLL:
    folder, here = os.environ.get("HVPM_LIB"), os.path.join(os.path.dirname(os.path.abspath(__file__)), FILE)
    if folder is not None:
        return ctypes.CDLL(os.path.join(folder, FILE))
    if os.path.exists(here):
        return ctypes.CDLL(here)
    try:
        return ctypes.CDLL(FILE)
    except OSError:
        raise ImportError(
            f"the loader finds no {FILE}, and HVPM_LIB isn't set. Install the library, add its folder to "
            f"LD_LIBRARY_PATH, or set HVPM_LIB to that folder"
        ) from None


def _series(version: int) -> int:
    """The part of a version without which a program may break."""
    return version // 100 if version < 10000 else version // 10000 * 100


@functools.lru_cache(maxsize=None)
def _library() -> ctypes.CDLL:
    """The library. The first call loads it, so that `hvpm.serve` works without it."""
    library = _open()
    version, wanted = library.hvpm_version_number(), _raw.HVPM_VERSION
    if _series(version) != _series(wanted) or version < wanted:
        raise ImportError(f"{FILE} has version {version}, and the module needs {wanted}")
    return library


@functools.lru_cache(maxsize=None)
def _function(name: str) -> Any:
    function = getattr(_library(), name)
    function.restype, function.argtypes = _raw.FUNCTIONS[name]
    return function


def checked(kind: Any, value: Any) -> Any:
    """`value`, if it fits the type of an argument or a field. By itself ctypes would cut it."""
    if kind in UNSIGNED and not 0 <= value < 1 << 8 * ctypes.sizeof(kind):
        raise OverflowError(f"{value} doesn't fit {8 * ctypes.sizeof(kind)} bits")
    return value


def call(name: str, *arguments: Any) -> Any:
    """Calls `hvpm_NAME`."""
    function = _function("hvpm_" + name)
    return function(*map(checked, function.argtypes, arguments))


def struct(kind: Any, **fields: Any) -> Any:
    """A struct of the library with these fields."""
    types = dict(kind._fields_)
    return kind(**{name: checked(types[name], value) for name, value in fields.items()})
