"""The 21 calls by their fields: what each block has, and lines of a script by names, which `hvpm asm` reads.
The names are those of "Blocks and effects" in docs/POLICY.md."""
from __future__ import annotations

import re
from typing import Dict, List, NamedTuple, Optional, Sequence, Tuple, Union

from ._convert import Data, data
from .numbers import Call, Msr, Register

SELF = 2**64 - 1
Element = Union[int, Tuple[int, int]]


class Field(NamedTuple):
    """A field of a block, at an offset in bytes."""

    name: str
    at: int
    size: int


class Form(NamedTuple):
    """What a call takes: its block's fields, and the elements behind them."""

    size: int
    """The bytes of the block without elements."""
    fields: Tuple[Field, ...]
    element: int = 0
    """The bytes of an element, or 0 if it takes no list."""
    is_fast: bool = False
    """Whether the call has a fast form."""


def _form(size: int, fields: str, element: int = 0, is_fast: bool = False) -> Form:
    """`0:8 PartitionId, 8:4 VpIndex` are two fields."""
    found = re.findall(r"(\d+):(\d+) (\w+)", fields)
    return Form(size, tuple(Field(name, int(at), int(size)) for at, size, name in found), element, is_fast)


FORMS: Dict[int, Form] = {
    Call.CREATE_PARTITION: _form(8, "0:8 Flags"),
    Call.INITIALIZE_PARTITION: _form(8, "0:8 PartitionId", is_fast=True),
    Call.FINALIZE_PARTITION: _form(8, "0:8 PartitionId", is_fast=True),
    Call.DELETE_PARTITION: _form(8, "0:8 PartitionId", is_fast=True),
    Call.GET_PARTITION_PROPERTY: _form(16, "0:8 PartitionId, 8:4 PropertyCode"),
    Call.SET_PARTITION_PROPERTY: _form(24, "0:8 PartitionId, 8:4 PropertyCode, 16:8 PropertyValue"),
    Call.GET_PARTITION_ID: _form(0, ""),
    Call.GET_NEXT_CHILD_PARTITION: _form(16, "0:8 ParentId, 8:8 PreviousChildId"),
    Call.DEPOSIT_MEMORY: _form(8, "0:8 PartitionId", 8),
    Call.WITHDRAW_MEMORY: _form(8, "0:8 PartitionId"),
    Call.GET_MEMORY_BALANCE: _form(8, "0:8 PartitionId"),
    Call.CREATE_VP: _form(16, "0:8 PartitionId, 8:4 VpIndex", is_fast=True),
    Call.DELETE_VP: _form(16, "0:8 PartitionId, 8:4 VpIndex", is_fast=True),
    Call.GET_VP_REGISTERS: _form(16, "0:8 PartitionId, 8:4 VpIndex", 4),
    Call.SET_VP_REGISTERS: _form(16, "0:8 PartitionId, 8:4 VpIndex", 32),
    Call.DELETE_PORT: _form(16, "0:8 PartitionId, 8:4 PortId", is_fast=True),
    Call.DISCONNECT_PORT: _form(16, "0:8 PartitionId, 8:4 ConnectionId", is_fast=True),
    Call.POST_MESSAGE: _form(256, "0:4 ConnectionId, 8:4 MessageType, 12:4 PayloadSize, 16:240 Payload"),
    Call.SIGNAL_EVENT: _form(8, "0:4 ConnectionId, 4:2 FlagNumber", is_fast=True),
    Call.CREATE_PORT: _form(
        48,
        "0:8 PortPartition, 8:4 PortId, 16:8 ConnectionPartition, 24:4 PortType, 32:4 TargetSint, "
        "36:4 TargetVp, 40:2 BaseFlagNumber, 42:2 FlagCount",
    ),
    Call.CONNECT_PORT: _form(
        48, "0:8 ConnectionPartition, 8:4 ConnectionId, 16:8 PortPartition, 24:4 PortId, 32:4 PortType"
    ),
}


def call_name(code: int) -> str:
    """The TLFS's name of a call, such as `HvGetVpRegisters`."""
    return "Hv" + "".join(word.capitalize() for word in Call(code).name.split("_"))


CODES = {call_name(code): int(code) for code in FORMS}
REGISTERS = {int(each): each.name for each in Register}
MSRS = {int(each): each.name for each in Msr}


# ---- A call's numbers, from its fields ----


def _field(field: Field, value: Union[int, Data]) -> bytes:
    if field.name == "Payload":
        value = data(value)  # type: ignore[arg-type]  # It refuses what isn't bytes.
        if len(value) > field.size:
            raise OverflowError(f"a payload has at most {field.size} bytes, and not {len(value)}")
        return value.ljust(field.size, b"\0")
    if not isinstance(value, int):
        raise TypeError(f"{field.name} is a number, and not {type(value).__name__}")
    return value.to_bytes(field.size, "little")


def _element(size: int, element: Element) -> bytes:
    if size != 32:
        if not isinstance(element, int):
            raise TypeError("an element of this call is a number")
        return element.to_bytes(size, "little")
    if isinstance(element, int):
        raise TypeError("an element of HvSetVpRegisters is a pair of a register and a value")
    register, value = element
    return register.to_bytes(16, "little") + value.to_bytes(16, "little")


def frame(
    name: str, elements: Sequence[Element], reps: Optional[int], fields: Dict[str, Union[int, Data]]
) -> Tuple[int, bytes]:
    """RCX and the input of a call, which gets each field by its name. PayloadSize is by default that of the
    payload. `reps` is by default the number of elements."""
    if name not in CODES:
        raise TypeError(f"no call {name}")
    form, block = FORMS[CODES[name]], b""
    if "Payload" in fields and "PayloadSize" not in fields:
        fields = {**fields, "PayloadSize": len(data(fields["Payload"]))}  # type: ignore[arg-type]  # as above
    names = [field.name for field in form.fields]
    if sorted(names) != sorted(fields):
        wanted, given = (", ".join(each) or "none" for each in (names, fields))
        raise TypeError(f"the fields of {name} are {wanted}, and not {given}")
    if elements and not form.element:
        raise TypeError(f"{name} takes no elements")
    for field in form.fields:
        block = block.ljust(field.at, b"\0") + _field(field, fields[field.name])
    count = len(elements) if reps is None else reps
    block = block.ljust(form.size, b"\0") + b"".join(_element(form.element, each) for each in elements)
    return CODES[name] | count << 32, block


# ---- A line of numbers, by names ----


def _number(word: str) -> int:
    return int(word, 16) if word.startswith("0x") else int(word)


def _register(number: int) -> str:
    return REGISTERS.get(number, hex(number))


def _field_words(form: Form, block: bytes) -> Optional[List[str]]:
    """The fields of a block. None if a byte that isn't theirs isn't zero."""
    words, rest = [], bytearray(block)
    for name, at, size in form.fields:
        if name == "Payload":
            size = min(size, int.from_bytes(block[12:16], "little"))
            words.append(f"Payload={block[at : at + size].hex() or '-'}")
        else:
            value = int.from_bytes(block[at : at + size], "little")
            words.append(f"{name}={'self' if size == 8 and value == SELF else value}")
        rest[at : at + size] = bytes(size)
    return None if any(rest) else words


def _element_word(form: Form, element: bytes) -> Optional[str]:
    if form.element == 8:
        return str(int.from_bytes(element, "little"))
    register = _register(int.from_bytes(element[:4], "little"))
    if form.element == 4:
        return register
    if any(element[4:16]) or any(element[24:]):
        return None
    return f"{register}={int.from_bytes(element[16:24], 'little'):#x}"


def _call_words(rcx: int, rdx: int, r8: int, block: bytes) -> Optional[List[str]]:
    """A call by names, or None if names don't say all of it."""
    fast, reps, start = rcx >> 16 & 1, rcx >> 32 & 0xFFF, rcx >> 48 & 0xFFF
    form = FORMS.get(rcx & 0xFFFF)
    if form is None or rcx != rcx & 0xFFFF | fast << 16 | reps << 32 | start << 48:
        return None
    if fast:
        block = rdx.to_bytes(8, "little") + r8.to_bytes(8, "little")
        if not form.is_fast or any(block[form.size :]):
            return None
    block = block.ljust(form.size, b"\0")
    rest = b"" if fast else block[form.size :]
    words = _field_words(form, block[: form.size])
    if words is None or rest and not form.element:
        return None
    elements = [rest[at : at + form.element] for at in range(0, len(rest), form.element or 1)]
    for element in elements:
        word = _element_word(form, element.ljust(form.element, b"\0"))  # A line may lack zeros at its end.
        if word is None:
            return None
        words.append(word)
    options = [("reps", str(reps), reps != len(elements)), ("start", str(start), start != 0)]
    if not fast:
        options += [("input", hex(rdx), rdx != 0), ("output", hex(r8), r8 != 0)]
    words += [f"{name}={value}" for name, value, is_told in options if is_told]
    return [call_name(rcx & 0xFFFF), *["fast"] * fast, *words]


def by_names(line: str) -> str:
    """Returns a line of a script by names, which `hvpm asm` makes a line of numbers again. A line that has no
    such form stays as it is."""
    words = line.split()
    if len(words) > 2 and words[1] in ("call", "rdmsr", "wrmsr") and not words[0].startswith("#"):
        by, what, *rest = words
        told: Optional[List[str]] = None
        if what == "call":
            block = bytes.fromhex(rest[3].replace("-", ""))
            told = _call_words(_number(rest[0]), _number(rest[1]), _number(rest[2]), block)
        elif _number(rest[0]) in MSRS:
            name = MSRS[_number(rest[0])]
            told = ["read", name] if what == "rdmsr" else ["write", name, hex(_number(rest[1]))]
        if told is not None:
            return " ".join([by, *told]) + ("\n" if line.endswith("\n") else "")
    return line
