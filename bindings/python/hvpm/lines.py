"""Recording: events as lines of a script, which `hvpm run SCRIPT --serial` repeats."""
from __future__ import annotations

import enum
from typing import Tuple

from . import _raw
from ._convert import Data, caller, data, text
from ._library import struct


class Access(enum.IntEnum):
    """An access: what a processor does without a hypercall."""

    READ_MSR = _raw.HVPM_READ_MSR
    WRITE_MSR = _raw.HVPM_WRITE_MSR
    READ_SLOT = _raw.HVPM_READ_SLOT
    CLEAR_SLOT = _raw.HVPM_CLEAR_SLOT
    READ_FLAGS = _raw.HVPM_READ_FLAGS
    CLEAR_FLAG = _raw.HVPM_CLEAR_FLAG
    TAKE_INTERRUPT = _raw.HVPM_TAKE_INTERRUPT


def boot_line(mask: int, pages: int, pool: int, vps: int, limit: int) -> str:
    """Returns the first line of a script, which boots a machine, with its line feed. `limit` is at least the
    number of events."""
    return f"boot {pages} {pool} {vps} {mask:#x} {limit}\n"


def hypercall_line(by: Tuple[int, int], rcx: int, rdx: int = 0, r8: int = 0, input: Data = b"") -> str:
    """Returns the line of a hypercall, with its line feed. The line has the bytes of the call's input list, the
    first 4,096 of them: no list that rule P6 lets pass is longer. A rep call is one line, which executes all of
    its elements: record only the first."""
    registers, input = struct(_raw.hvpm_registers, rcx=rcx, rdx=rdx, r8=r8), data(input)
    return text("hypercall_line", caller(by), registers, input, len(input))


def access_line(by: Tuple[int, int], access: Access, number: int = 0, value: int = 0) -> str:
    """Returns the line of an access, with its line feed. `number` is the MSR or the SINT. `value` is what is
    written to an MSR, or the event flag to clear."""
    return text("access_line", caller(by), access, number, value)
