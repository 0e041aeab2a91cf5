"""Makes the events of a script again, and explains each of them."""
from __future__ import annotations

from typing import Any, Callable, Dict, Iterator, List, Tuple

from . import _raw
from ._library import struct
from .machine import By, Machine
from .replies import Answer, Reply, next

ACCESSES: Dict[str, Tuple[int, Callable[..., Reply[Any]]]] = {
    "rdmsr": (_raw.HVPM_READ_MSR, Machine.read_msr),
    "wrmsr": (_raw.HVPM_WRITE_MSR, Machine.write_msr),
    "slot": (_raw.HVPM_READ_SLOT, Machine.read_slot),
    "clearslot": (_raw.HVPM_CLEAR_SLOT, Machine.clear_slot),
    "flags": (_raw.HVPM_READ_FLAGS, Machine.read_flags),
    "clearflag": (_raw.HVPM_CLEAR_FLAG, Machine.clear_flag),
    "interrupt": (_raw.HVPM_TAKE_INTERRUPT, Machine.take_interrupt),
}


def _number(word: str) -> int:
    return int(word, 16) if word.startswith("0x") else int(word)


def _call(machine: Machine, by: By, words: List[str]) -> Iterator[Callable[[], str]]:
    """Makes a call, element by element. Gives what explains each, until the next one."""
    rcx, rdx, r8 = map(_number, words[:3])
    block, is_more = bytes.fromhex(words[3].replace("-", "")), True
    while is_more:
        registers = struct(_raw.hvpm_registers, rcx=rcx, rdx=rdx, r8=r8)
        reply = machine.hypercall(by, rcx, rdx, r8, block)
        arguments = (registers, block, len(block), reply._raw)
        yield lambda: machine._explain("explain", by, *arguments)
        is_more = reply.answer is Answer.MORE
        rcx = next(rcx, reply)


def _access(machine: Machine, by: By, word: str, words: List[str]) -> Iterator[Callable[[], str]]:
    access, take = ACCESSES[word]
    numbers = [_number(each) for each in words]
    reply = take(machine, by, *numbers)
    number, value = [*numbers, 0, 0][:2]
    yield lambda: machine._explain("explain_access", by, access, number, value, reply._raw)


def explained(script: str, begin: int) -> List[str]:
    """The events of a script of numbers in words, from number `begin` + 1 on."""
    boot, *lines = script.splitlines() or [""]
    if not boot.startswith("boot "):
        raise ValueError("the record's beginning was taken")
    pages, pool, vps, mask = map(_number, boot.split()[1:5])
    told: List[str] = []
    number = 0
    with Machine.boot(mask=mask, pages=pages, pool=pool, vps=vps) as machine:
        for line in lines:
            who, word, *words = line.split()
            partition, vp = map(int, who.split("."))
            by = (partition, vp)
            events = _call(machine, by, words) if word == "call" else _access(machine, by, word, words)
            for explanation in events:
                number += 1
                if number > begin:
                    told.append(f"{number} {who} {explanation()}\n")
    return told
