"""The machine: boot, hypercalls, accesses and looks. Each function has the name of its function in C, without
`hvpm_`."""
from __future__ import annotations

import ctypes
import enum
import threading
from dataclasses import dataclass
from typing import Any, Callable, FrozenSet, Iterable, Iterator, Optional, Sequence, Tuple

from . import _raw
from ._convert import Data, bits_of, caller, check, data, reply_of, text, vectors_of
from ._library import call, checked, struct
from .forms import by_names
from .replies import Made, Message, Reply, Run, Status

SELF = _raw.HVPM_SELF
"""HV_PARTITION_ID_SELF. In a hypercall, this partition id means the caller's own partition."""
ANY_VP = _raw.HVPM_ANY_VP
"""HV_ANY_VP. A port with this `vp` may deliver to any processor of its partition."""

By = Tuple[int, int]


class PortType(enum.IntEnum):
    """The type of a port."""

    MESSAGES = _raw.HVPM_PORT_MESSAGES
    EVENTS = _raw.HVPM_PORT_EVENTS


class Property(enum.IntEnum):
    """A property of a partition."""

    PRIVILEGE_FLAGS = _raw.HVPM_PRIVILEGE_FLAGS
    CPU_RESERVE = _raw.HVPM_CPU_RESERVE
    CPU_CAP = _raw.HVPM_CPU_CAP
    CPU_WEIGHT = _raw.HVPM_CPU_WEIGHT


class Life(enum.IntEnum):
    """The life state of a partition."""

    CREATED = _raw.HVPM_LIFE_CREATED
    ACTIVE = _raw.HVPM_LIFE_ACTIVE
    FINALIZED = _raw.HVPM_LIFE_FINALIZED


@dataclass(frozen=True)
class Balance:
    """How many pages of a partition's pool are available, and how many pay for children, processors, ports
    and connections."""

    available: int
    in_use: int


@dataclass(frozen=True)
class Port:
    """A port, as `Machine.peek_port` returns it."""

    partition: int
    id: int
    peer: int
    type: PortType
    sint: int
    vp: int
    base_flag: int
    flag_count: int


@dataclass(frozen=True)
class Connection:
    """A connection, as `Machine.peek_connection` returns it."""

    partition: int
    id: int
    port_partition: int
    port: int
    type: PortType


@dataclass(frozen=True)
class Partition:
    """A partition, as `Machine.peek_partition` returns it. The root's parent is None."""

    mask: int
    parent: Optional[int]
    depth: int
    pooled: int
    in_use: int
    life: Life
    children: int
    vps: int
    ports: int
    connections: int


@dataclass(frozen=True)
class PageRun:
    """Pages of a partition whose numbers follow each other, as `Machine.page_after` returns them."""

    page: int
    """The first page."""
    count: int
    """The number of pages, at least 1."""
    pooled: bool
    """Whether they are in the partition's pool. Otherwise they are loose."""


def _each(after: Callable[[Optional[int]], Optional[int]]) -> Iterator[int]:
    """Gives each number that `after` finds above the one before."""
    number = after(None)
    while number is not None:
        yield number
        number = after(number)


def is_msr(msr: int) -> bool:
    """Returns whether the machine implements this model-specific register. The VMM handles all others."""
    return bool(call("is_msr", msr))


def is_call(code: int) -> bool:
    """Returns whether the machine implements the hypercall with this code, bits 15:0 of RCX."""
    return bool(call("is_call", code))


def _registers(pairs: Iterable[Tuple[int, int]]) -> Any:
    """Registers as the library has them, from names and values."""
    structs = [struct(_raw.hvpm_vp_register, name=name, value=value) for name, value in pairs]
    return (_raw.hvpm_vp_register * len(structs))(*structs)


def _count(elements: Any) -> int:
    """The count of a rep call. P5 refuses a count of more than 12 bits."""
    return min(len(elements), 0xFFFF)


@dataclass(frozen=True)
class Record:
    """What a machine that was booted with `record` did since the record was last taken."""

    script: str
    """The boot and the events as lines of a script, which `hvpm run SCRIPT --serial` repeats."""
    audit: str
    """The audit lines of the events."""
    is_cut: bool
    """Whether the record ended before the machine's last event: memory ran out, or another event came between
    two elements of a rep call, which a script has in one line."""


def _copy(kept: Any) -> str:
    """Copies a text of a record."""
    return ctypes.string_at(kept.at, kept.len).decode("ascii") if kept.len else ""


def _take(kept: Any) -> str:
    """Copies a text of a record, and empties it."""
    taken, kept.len = _copy(kept), 0
    return taken


class Machine:
    """A machine: all partitions with their pages, processors, ports, connections and messages.

    `boot` makes one, and `destroy` or the end of `with` frees it. Threads may share a machine, which makes
    one call at a time. Each method that takes `by` executes an event of that processor, and raises `Error` if
    it can't. A rule that refuses the event isn't an error: the reply names it."""

    def __init__(self) -> None:
        raise TypeError("Machine.boot makes a machine")

    @classmethod
    def boot(cls, *, mask: int, pages: int, pool: int, vps: int, record: bool = False) -> Machine:
        """Boots a machine. The root partition has id 1 and is Active. It has the privilege mask `mask`,
        `pages` pages (1 to 65,536), of which the first `pool` are in its pool, and `vps` virtual processors
        (1 to 64). The pool has at least 4 pages for each processor.

        With `record` it records its boot and each of its events: hypercalls, lists, accesses, and what
        `Pages` do in a guest's place. `script` and `explain` show the record, and `take_record` takes it."""
        machine = object.__new__(cls)
        machine._lock, machine._handle = threading.Lock(), _raw.hvpm_machine()
        if record:
            machine._handle.record = ctypes.pointer(_raw.hvpm_record())
        config = struct(_raw.hvpm_config, mask=mask, pages=pages, pool=pool, vps=vps)
        check(call("boot", machine._handle, config))
        return machine

    _lock: threading.Lock
    _handle: Any

    def destroy(self) -> None:
        """Destroys the machine and frees its memory, its record's included. After that, every event and look
        raises `Error` with the status EMPTY."""
        with self._lock:
            call("destroy", self._handle)
            if self._handle.record:
                call("record_free", self._handle.record)

    def _record(self, copy: Callable[[Any], str]) -> Record:
        with self._lock:
            if not self._handle.record:
                return Record("", "", False)
            record = self._handle.record.contents
            return Record(copy(record.script), copy(record.audit), record.is_cut)

    def take_record(self) -> Record:
        """Takes what was recorded since the last call. It is empty unless the machine was booted with
        `record`.

        All scripts in order, and all audits in order with a last line `events N`, are what
        `hvpm run SCRIPT --serial` reads and prints."""
        return self._record(_take)

    def _kept(self) -> Record:
        """What is recorded and wasn't taken."""
        if not self._handle.record:
            raise ValueError("the machine has no record: Machine.boot(.., record=True) makes one")
        return self._record(_copy)

    def script(self) -> str:
        """Returns what is recorded and wasn't taken, as a script by names, of which `hvpm asm` makes one that
        the program runs. A last line, a comment, says so if the record ended before the last event."""
        record = self._kept()
        end = "# The record ends here: later events aren't in it.\n" if record.is_cut else ""
        return "".join(map(by_names, record.script.splitlines(True))) + end

    def explain(self, last: Optional[int] = None) -> str:
        """Returns what is recorded and wasn't taken, in words: a line for each event, as `hvpm explain` prints
        them. With `last` it returns that many lines at most, those of the last events.

        The events are made again, by a machine of their own. Raises ValueError if the record's beginning was
        taken."""
        from ._explain import explained  # here, since it imports this module

        record = self._kept()
        begin = 0 if last is None or record.is_cut else self.events - last
        lines = explained(record.script, begin)
        return "".join(lines if last is None else lines[max(0, len(lines) - last) :])

    def _explain(self, name: str, by: By, *arguments: Any) -> str:
        """What was the last event, with its arguments and its reply."""
        with self._lock:
            return text(name, self._handle, caller(by), *arguments)

    def __enter__(self) -> Machine:
        return self

    def __exit__(self, *_: object) -> None:
        self.destroy()

    def __del__(self) -> None:
        if hasattr(self, "_handle"):
            self.destroy()

    @property
    def events(self) -> int:
        """The number of events so far, served or refused."""
        return int(self._handle.events)

    # ---- Events ----

    def _take(
        self, name: str, by: By, *arguments: Any, value: Optional[Callable[[bytes], Any]] = None
    ) -> Reply[Any]:
        """Executes an event. If it was served, `value` is called with its output."""
        reply, line = _raw.hvpm_reply(), ctypes.create_string_buffer(_raw.HVPM_LINE)
        with self._lock:
            check(call(name, self._handle, caller(by), *arguments, reply, line, _raw.HVPM_LINE))
        return reply_of(reply, line.raw, value)

    def _take_number(self, name: str, by: By, *arguments: Any) -> Reply[int]:
        number = ctypes.c_uint64()
        return self._take(name, by, *arguments, number, value=lambda _: number.value)

    def hypercall(self, by: By, rcx: int, rdx: int = 0, r8: int = 0, input: Data = b"") -> Reply[None]:
        """Executes one hypercall: a simple call, or the element of a rep call at its start index.

        `input` holds the bytes from guest memory at RDX. Bytes that the list needs but `input` lacks read as
        zero, and a fast call ignores it. If the reply is MORE, continue with `hvpm.next`."""
        registers, input = struct(_raw.hvpm_registers, rcx=rcx, rdx=rdx, r8=r8), data(input)
        return self._take("hypercall", by, registers, input, len(input))

    def run(
        self, by: By, rcx: int, rdx: int = 0, r8: int = 0, input: Data = b"", outputs_size: int = 4096
    ) -> Run:
        """Executes a hypercall like `hypercall`. A rep call continues with its next elements, each as an
        event of its own. It stops

        - after the last element, or one that a rule refuses;
        - after one whose effect is neither Nothing nor Page;
        - when fewer than 16 of `outputs_size` bytes are left;
        - when the machine takes no more events, or lacks memory for the next element, which isn't executed.

        If the reply is MORE, continue with `hvpm.next`. There are no audit lines."""
        return self._run("run", by, (rcx, rdx, r8), input, outputs_size)

    def run_at_most(
        self,
        by: By,
        most: int,
        rcx: int,
        rdx: int = 0,
        r8: int = 0,
        input: Data = b"",
        outputs_size: int = 4096,
    ) -> Run:
        """Like `run`, but also stops after `most` elements, at least 1."""
        return self._run("run_at_most", by, (rcx, rdx, r8), input, outputs_size, most)

    def _run(
        self, name: str, by: By, numbers: Tuple[int, int, int], input: Data, size: int, *most: int
    ) -> Run:
        registers = struct(_raw.hvpm_registers, rcx=numbers[0], rdx=numbers[1], r8=numbers[2])
        input, outputs = data(input), ctypes.create_string_buffer(size)
        reply, done = _raw.hvpm_reply(), _raw.hvpm_run_done()
        with self._lock:
            arguments = (registers, input, len(input), *most, reply, outputs, size, done)
            check(call(name, self._handle, caller(by), *arguments))
        return Run(reply_of(reply, b""), done.events, outputs.raw[: done.output_len])

    def read_msr(self, by: By, msr: int) -> Reply[None]:
        """Reads a model-specific register. The output is its value: 8 bytes, little-endian."""
        return self._take("read_msr", by, msr)

    def read_msr_value(self, by: By, msr: int) -> Reply[int]:
        """Like `read_msr`, with the value as a number."""
        return self._take_number("read_msr_value", by, msr)

    def write_msr(self, by: By, msr: int, value: int) -> Reply[None]:
        """Writes a model-specific register. A write of EOM may show messages and raise vectors."""
        return self._take("write_msr", by, msr, value)

    def read_slot(self, by: By, sint: int) -> Reply[Optional[Message]]:
        """Reads the message slot of a SINT. The value is its message, or None if the slot is empty. The output
        is 256 bytes, all zero if it is empty."""
        return self._take("read_slot", by, sint, value=Message.of)

    def clear_slot(self, by: By, sint: int) -> Reply[None]:
        """Empties the message slot of a SINT. The next message appears on EOM or on a post."""
        return self._take("clear_slot", by, sint)

    def read_flags(self, by: By, sint: int) -> Reply[FrozenSet[int]]:
        """Reads the event flags of a SINT. The value is those that are set. The output is 256 bytes; flag f is
        bit f % 8 of byte f // 8."""
        return self._take("read_flags", by, sint, value=lambda output: bits_of(output, 8))

    def clear_flag(self, by: By, sint: int, flag: int) -> Reply[None]:
        """Clears one event flag of a SINT."""
        return self._take("clear_flag", by, sint, flag)

    def take_interrupt(self, by: By) -> Reply[int]:
        """Takes the highest pending vector. The value, and the output of one byte, is the vector, or 0 if none
        is pending."""
        return self._take("take_interrupt", by, value=lambda output: output[0])

    # ---- The 21 hypercalls by their fields. The four rep calls execute the element at `start`. ----

    def create_partition(self, by: By, flags: int = 0) -> Reply[int]:
        """HvCreatePartition. The value is the new partition's id. The flags have no effect."""
        return self._take_number("create_partition", by, flags)

    def initialize_partition(self, by: By, partition: int) -> Reply[None]:
        """HvInitializePartition: makes a Created child Active."""
        return self._take("initialize_partition", by, partition)

    def finalize_partition(self, by: By, partition: int) -> Reply[None]:
        """HvFinalizePartition: removes a child's processors, ports and connections, for good."""
        return self._take("finalize_partition", by, partition)

    def delete_partition(self, by: By, partition: int) -> Reply[None]:
        """HvDeletePartition: removes a Created or Finalized child. Its pages become loose pages of the
        caller."""
        return self._take("delete_partition", by, partition)

    def get_partition_property(self, by: By, partition: int, property: int) -> Reply[int]:
        """HvGetPartitionProperty. The value is the property's."""
        return self._take_number("get_partition_property", by, partition, property)

    def set_partition_property(self, by: By, partition: int, property: int, value: int) -> Reply[None]:
        """HvSetPartitionProperty: sets a property of a child."""
        return self._take("set_partition_property", by, partition, property, value)

    def get_partition_id(self, by: By) -> Reply[int]:
        """HvGetPartitionId. The value is the id of the caller's partition."""
        return self._take_number("get_partition_id", by)

    def get_next_child_partition(self, by: By, parent: int, previous: int = 0) -> Reply[int]:
        """HvGetNextChildPartition. The value is the child with the lowest id above `previous`, or 0 if there
        is none. Pass 0 for the first."""
        return self._take_number("get_next_child_partition", by, parent, previous)

    def deposit_memory(self, by: By, partition: int, pages: Sequence[int], start: int = 0) -> Reply[None]:
        """HvDepositMemory, a rep call: moves the caller's page `pages[start]` to the partition's pool."""
        array = (ctypes.c_uint64 * len(pages))(*(checked(ctypes.c_uint64, page) for page in pages))
        return self._take("deposit_memory", by, partition, array, _count(array), start)

    def withdraw_memory(self, by: By, partition: int, count: int = 1, start: int = 0) -> Reply[int]:
        """HvWithdrawMemory, a rep call: moves a page of the partition's pool to the caller. The value is that
        page."""
        array = (ctypes.c_uint64 * count)()
        return self._take(
            "withdraw_memory", by, partition, array, _count(array), start, value=lambda _: array[start]
        )

    def get_memory_balance(self, by: By, partition: int) -> Reply[Balance]:
        """HvGetMemoryBalance. The value says how many pages of the partition's pool are available and in
        use."""
        available, in_use = ctypes.c_uint64(), ctypes.c_uint64()
        return self._take(
            "get_memory_balance",
            by,
            partition,
            available,
            in_use,
            value=lambda _: Balance(available.value, in_use.value),
        )

    def create_vp(self, by: By, partition: int, vp: int) -> Reply[None]:
        """HvCreateVp: creates the processor with index `vp`, 0 to 63."""
        return self._take("create_vp", by, partition, vp)

    def delete_vp(self, by: By, partition: int, vp: int) -> Reply[None]:
        """HvDeleteVp: deletes a processor with its registers, messages, event flags and pending vectors."""
        return self._take("delete_vp", by, partition, vp)

    def get_vp_registers(
        self, by: By, partition: int, vp: int, names: Sequence[int], start: int = 0
    ) -> Reply[int]:
        """HvGetVpRegisters, a rep call. The value is that of register `names[start]`."""
        array = _registers((name, 0) for name in names)
        return self._take(
            "get_vp_registers",
            by,
            partition,
            vp,
            array,
            _count(array),
            start,
            value=lambda _: array[start].value,
        )

    def set_vp_registers(
        self, by: By, partition: int, vp: int, registers: Sequence[Tuple[int, int]], start: int = 0
    ) -> Reply[None]:
        """HvSetVpRegisters, a rep call. `registers` has pairs of a name and a value. The register of the pair
        at `start` is set to its value."""
        array = _registers(registers)
        return self._take("set_vp_registers", by, partition, vp, array, _count(array), start)

    def delete_port(self, by: By, partition: int, port: int) -> Reply[None]:
        """HvDeletePort. Connections to the port remain."""
        return self._take("delete_port", by, partition, port)

    def disconnect_port(self, by: By, partition: int, connection: int) -> Reply[None]:
        """HvDisconnectPort: deletes a connection of the partition."""
        return self._take("disconnect_port", by, partition, connection)

    def post_message(self, by: By, connection: int, type: int, payload: Data = b"") -> Reply[None]:
        """HvPostMessage: posts a message through a connection of the caller. Rule P7 refuses a payload of
        more than 240 bytes."""
        payload = data(payload)
        return self._take("post_message", by, connection, type, payload, len(payload))

    def signal_event(self, by: By, connection: int, flag: int) -> Reply[None]:
        """HvSignalEvent: signals through a connection of the caller. `flag` counts from the port's
        `base_flag`."""
        return self._take("signal_event", by, connection, flag)

    def create_port(
        self,
        by: By,
        *,
        partition: int = SELF,
        id: int,
        peer: int,
        type: int = PortType.MESSAGES,
        sint: int,
        vp: int = ANY_VP,
        base_flag: int = 0,
        flag_count: int = 0,
    ) -> Reply[None]:
        """HvCreatePort: PortPartition, PortId, ConnectionPartition, PortType, TargetSint, TargetVp,
        BaseFlagNumber and FlagCount."""
        port = struct(
            _raw.hvpm_port,
            partition=partition,
            id=id,
            peer=peer,
            type=type,
            sint=sint,
            vp=vp,
            base_flag=base_flag,
            flag_count=flag_count,
        )
        return self._take("create_port", by, port)

    def connect_port(
        self,
        by: By,
        *,
        partition: int = SELF,
        id: int,
        port_partition: int,
        port: int,
        type: int = PortType.MESSAGES,
    ) -> Reply[None]:
        """HvConnectPort: ConnectionPartition, ConnectionId, PortPartition, PortId and PortType."""
        connection = struct(
            _raw.hvpm_connection,
            partition=partition,
            id=id,
            port_partition=port_partition,
            port=port,
            type=type,
        )
        return self._take("connect_port", by, connection)

    # ---- The four rep calls for lists of any length. Each element is an event of its own, without an audit
    # line. A call stops at the element that a rule refuses, and where `run` does. P5 refuses an empty list. ----

    def _make(self, name: str, by: By, *arguments: Any, values: Callable[[int], Any] = lambda _: ()) -> Made:
        made, reply = ctypes.c_size_t(), _raw.hvpm_reply()
        with self._lock:
            check(call(name, self._handle, caller(by), *arguments, made, reply))
        return Made(reply_of(reply, b""), made.value, tuple(values(made.value)))

    def deposit_pages(self, by: By, partition: int, pages: Sequence[int]) -> Made:
        """HvDepositMemory: moves the caller's pages to the partition's pool."""
        array = (ctypes.c_uint64 * len(pages))(*(checked(ctypes.c_uint64, page) for page in pages))
        return self._make("deposit_pages", by, partition, array, len(array))

    def withdraw_pages(self, by: By, partition: int, count: int) -> Made:
        """HvWithdrawMemory: moves pages of the partition's pool to the caller. The values are those pages."""
        array = (ctypes.c_uint64 * count)()
        return self._make("withdraw_pages", by, partition, array, count, values=lambda made: array[:made])

    def read_registers(self, by: By, partition: int, vp: int, names: Sequence[int]) -> Made:
        """HvGetVpRegisters. The values are those of the registers."""
        array = _registers((name, 0) for name in names)
        return self._make(
            "read_registers", by, partition, vp, array, len(array),
            values=lambda made: (each.value for each in array[:made]),
        )  # fmt: skip

    def write_registers(
        self, by: By, partition: int, vp: int, registers: Sequence[Tuple[int, int]]
    ) -> Made:
        """HvSetVpRegisters. `registers` has pairs of a name and a value. It stops after a write of EOM that
        shows a message."""
        array = _registers(registers)
        return self._make("write_registers", by, partition, vp, array, len(array))

    # ---- Looks read the machine without an event: they aren't counted and have no audit line. ----

    def _look(self, name: str, shown: Any, *arguments: Any) -> bool:
        """Returns whether what the arguments name exists. Then `shown` has it."""
        with self._lock:
            status = call(name, self._handle, *arguments, shown)
        if status != Status.NONE:
            check(status)
        return bool(status == Status.OK)

    def peek_slot(self, of: By, sint: int) -> Optional[bytes]:
        """Reads the message slot of a SINT: the 256 bytes that `read_slot` outputs. None if there is no such
        processor or SINT."""
        shown = (ctypes.c_uint8 * 256)()
        return bytes(shown) if self._look("peek_slot", shown, caller(of), sint) else None

    def peek_flags(self, of: By, sint: int) -> Optional[FrozenSet[int]]:
        """Returns the event flags of a SINT that are set. None if there is no such processor or SINT."""
        shown = (ctypes.c_uint8 * 256)()
        return bits_of(shown, 8) if self._look("peek_flags", shown, caller(of), sint) else None

    def peek_msr(self, of: By, msr: int) -> Optional[int]:
        """Reads a model-specific register. None if there is no such processor or register."""
        shown = ctypes.c_uint64()
        return shown.value if self._look("peek_msr", shown, caller(of), msr) else None

    def peek_pending(self, of: By) -> Optional[FrozenSet[int]]:
        """Returns the vectors that are pending at a processor. None if there is no such processor."""
        shown = (ctypes.c_uint64 * 4)()
        return vectors_of(shown) if self._look("peek_pending", shown, caller(of)) else None

    def peek_partition(self, id: int) -> Optional[Partition]:
        """Reads a partition. None if none has this id."""
        raw = _raw.hvpm_partition()
        if not self._look("peek_partition", raw, id):
            return None
        return Partition(
            mask=raw.mask,
            parent=raw.parent or None,
            depth=raw.depth,
            pooled=raw.pooled,
            in_use=raw.in_use,
            life=Life(raw.life),
            children=raw.children,
            vps=raw.vps,
            ports=raw.ports,
            connections=raw.connections,
        )

    def peek_port(self, partition: int, id: int) -> Optional[Port]:
        """Reads a port of a partition. None if none has this id."""
        raw = _raw.hvpm_port()
        if not self._look("peek_port", raw, partition, id):
            return None
        return Port(
            partition=raw.partition,
            id=raw.id,
            peer=raw.peer,
            type=PortType(raw.type),
            sint=raw.sint,
            vp=raw.vp,
            base_flag=raw.base_flag,
            flag_count=raw.flag_count,
        )

    def peek_connection(self, partition: int, id: int) -> Optional[Connection]:
        """Reads a connection of a partition. Its port may no longer exist. None if none has this id."""
        raw = _raw.hvpm_connection()
        if not self._look("peek_connection", raw, partition, id):
            return None
        return Connection(
            partition=raw.partition,
            id=raw.id,
            port_partition=raw.port_partition,
            port=raw.port,
            type=PortType(raw.type),
        )

    def child_after(self, parent: int, previous: int = 0) -> Optional[int]:
        """Returns the child with the lowest id above `previous`. Pass 0 for the first. None if there is no
        such child or partition."""
        shown = ctypes.c_uint64()
        return shown.value or None if self._look("child_after", shown, parent, previous) else None

    def _after(self, name: str, shown: Any, partition: int, previous: Optional[int]) -> bool:
        """Returns whether there is one above `previous`, or at all. Then `shown` has it."""
        # For the library, this number is below all others.
        first = previous is None
        return (first or previous != _raw.HVPM_FIRST) and self._look(
            name, shown, partition, _raw.HVPM_FIRST if first else previous
        )

    def _number_after(self, name: str, partition: int, previous: Optional[int]) -> Optional[int]:
        shown = ctypes.c_uint32()
        return shown.value if self._after(name, shown, partition, previous) else None

    def vp_after(self, partition: int, previous: Optional[int] = None) -> Optional[int]:
        """Returns the lowest index above `previous` of a partition's processors, or the lowest of all. None if
        there is no such processor or partition."""
        return self._number_after("vp_after", partition, previous)

    def port_after(self, partition: int, previous: Optional[int] = None) -> Optional[int]:
        """Returns the lowest id above `previous` of a partition's ports, or the lowest of all. None if there is
        no such port or partition."""
        return self._number_after("port_after", partition, previous)

    def connection_after(self, partition: int, previous: Optional[int] = None) -> Optional[int]:
        """Returns the lowest id above `previous` of a partition's connections, or the lowest of all. None if
        there is no such connection or partition."""
        return self._number_after("connection_after", partition, previous)

    def page_after(self, partition: int, previous: Optional[int] = None) -> Optional[PageRun]:
        """Returns the longest run of pages that begins at a partition's lowest page above `previous`, or at its
        lowest of all. None if there is no such page or partition. Takes time logarithmic in the number of the
        partition's runs."""
        raw = _raw.hvpm_page_run()
        if not self._after("page_after", raw, partition, previous):
            return None
        return PageRun(raw.page, raw.count, bool(raw.pooled))

    def vps(self, partition: int) -> Iterator[int]:
        """Gives the indexes of a partition's processors, in order."""
        return _each(lambda previous: self.vp_after(partition, previous))

    def ports(self, partition: int) -> Iterator[int]:
        """Gives the ids of a partition's ports, in order."""
        return _each(lambda previous: self.port_after(partition, previous))

    def connections(self, partition: int) -> Iterator[int]:
        """Gives the ids of a partition's connections, in order."""
        return _each(lambda previous: self.connection_after(partition, previous))

    def page_runs(self, partition: int) -> Iterator[PageRun]:
        """Gives the pages of a partition as runs, in order. After the effect `Pages`, those of the deleted
        partition are among those of its target."""
        run = self.page_after(partition)
        while run is not None:
            yield run
            run = self.page_after(partition, run.page + run.count - 1)

    def page_owner(self, page: int) -> Optional[int]:
        """Returns the partition that owns a page. None if there is no such page. Takes time linear in the
        number of partition ids ever used: for the pages of a partition, call `page_runs`."""
        shown = ctypes.c_uint64()
        return shown.value if self._look("page_owner", shown, page) else None

    def features(self, partition: int) -> Optional[Tuple[int, ...]]:
        """Returns EAX, EBX, ECX and EDX of CPUID leaf 0x40000003 for a guest: the low and the high half of
        its partition's privilege mask, 0 and 0. None if there is no such partition."""
        shown = (ctypes.c_uint32 * 4)()
        return tuple(shown) if self._look("features", shown, partition) else None

    def table(self) -> str:
        """Returns the table of partitions, as `hvpm run --table` prints it."""
        with self._lock:
            return text("table", self._handle)
