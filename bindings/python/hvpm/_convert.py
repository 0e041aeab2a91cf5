"""Between the values of the module and those of the library."""
from __future__ import annotations

import ctypes
from typing import Any, Callable, FrozenSet, Iterable, Optional, Tuple, Union

from . import _raw
from ._library import call, struct
from .effect import Effect, Flag, Nothing, Page, Pages, Partition, Processor, Synic
from .replies import Answer, Error, HvStatus, Reply, Rule, Status

Data = Union[bytes, bytearray, memoryview]


def check(status: int) -> None:
    """Raises an error unless the status is OK."""
    if status != Status.OK:
        raise Error(Status(status))


def text(name: str, *arguments: Any) -> str:
    """The text that a function of the library writes into a buffer."""
    size = ctypes.c_size_t()
    buffer = ctypes.create_string_buffer(0)
    status = call(name, *arguments, buffer, 0, size)
    if status == Status.SHORT:
        buffer = ctypes.create_string_buffer(size.value)
        status = call(name, *arguments, buffer, size.value, size)
    check(status)
    return buffer.raw[: size.value].decode("ascii")


def data(value: Data) -> bytes:
    """Bytes as the library has them. By itself ctypes would take a text, as 4 bytes a character."""
    if isinstance(value, (bytes, bytearray, memoryview)):
        return bytes(value)
    hint = ": encode it" if isinstance(value, str) else ""
    raise TypeError(f"bytes are wanted, and not {type(value).__name__}{hint}")


def caller(by: Tuple[int, int]) -> Any:
    """A virtual processor as the library has it."""
    partition, vp = by
    return struct(_raw.hvpm_caller, partition=partition, vp=vp)


def bits_of(words: Iterable[int], size: int) -> FrozenSet[int]:
    """The numbers of the bits that are set in words of `size` bits, the lowest word first."""
    return frozenset(
        size * place + bit for place, word in enumerate(words) for bit in range(size) if word >> bit & 1
    )


def vectors_of(words: Any) -> FrozenSet[int]:
    """The vectors of a set of four words."""
    return bits_of(words, 64)


def synic_of(raw: Any) -> Synic:
    """What the library wrote of a processor."""
    flag = Flag(raw.flag_sint, raw.flag, raw.flag_is == _raw.HVPM_FLAG_SET)
    return Synic(
        partition=raw.partition,
        vp=raw.vp,
        shown=bits_of([raw.shown], 16),
        waiting=bits_of([raw.waiting], 16),
        flag=flag if raw.flag_is else None,
        raised=vectors_of(raw.raised),
        freed=raw.port if raw.freed else None,
    )


def effect_of(raw: Any) -> Effect:
    """The effect that the library wrote."""
    if raw.kind == _raw.HVPM_EFFECT_SYNIC:
        return synic_of(raw)
    if raw.kind == _raw.HVPM_EFFECT_PAGE:
        return Page(raw.page, raw.partition, bool(raw.pooled))
    if raw.kind == _raw.HVPM_EFFECT_PAGES:
        return Pages(source=raw.page, target=raw.partition)
    if raw.kind == _raw.HVPM_EFFECT_PROCESSOR:
        return Processor(raw.partition, raw.vp)
    if raw.kind == _raw.HVPM_EFFECT_PARTITION:
        return Partition(raw.partition)
    return Nothing()


def reply_of(raw: Any, line: bytes, value: Optional[Callable[[bytes], Any]] = None) -> Reply[Any]:
    """The reply that the library wrote. If the event was served, `value` is called with the output."""
    answer, output = Answer(raw.kind), bytes(raw.output[: raw.output_len])
    is_served = answer in (Answer.SERVED, Answer.MORE)
    return Reply(
        answer=answer,
        rule=None if is_served else Rule(raw.rule),
        status=None if answer == Answer.FAULT else HvStatus(raw.result & 0xFFFF),
        result=raw.result,
        next=raw.next,
        output=output,
        line=line[: raw.line_len].decode("ascii"),
        effect=effect_of(raw.effect),
        value=value(output) if value and is_served else None,
        _raw=raw,
    )
