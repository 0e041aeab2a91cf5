"""A partition manager with the Hyper-V interface, for tests of guest code and hypervisors. Each function has
the name of its function in C, without `hvpm_`.

    >>> import hvpm
    >>> m = hvpm.Machine.boot(mask=0xF700000064, pages=64, pool=32, vps=1)
    >>> root = hvpm.Caller(1, 0)
    >>> m.create_partition(root).value
    2
    >>> reply = m.create_vp(root, partition=2, vp=0)
    >>> reply.status, reply.rule, reply.effect
    (HV_STATUS_INVALID_PARTITION_STATE, P12, Nothing())
    >>> m.peek_partition(2).life.name
    'CREATED'

`hvpm.serve` drives a program through a pipe instead, and needs no library. `hvpm.pytest_plugin` has a
fixture.
"""
from . import effect, pages, serve
from .lines import Access, access_line, boot_line, hypercall_line
from .machine import (
    ANY_VP,
    SELF,
    Balance,
    Connection,
    Life,
    Machine,
    PageRun,
    Partition,
    Port,
    PortType,
    Property,
    Record,
    is_call,
    is_msr,
)
from .numbers import Call, HvStatusNumber, Msr, Privilege, Register, RuleNumber
from .pages import Pages
from .replies import (
    Answer,
    Caller,
    Error,
    HvStatus,
    Made,
    Message,
    Refused,
    Reply,
    Rule,
    Run,
    Status,
    hv_status_name,
    next,
    rule_name,
    rule_sentence,
    status_name,
    version,
    version_number,
)

__all__ = [
    "ANY_VP", "SELF", "Access", "Answer", "Balance", "Call", "Caller", "Connection", "Error", "HvStatus",
    "HvStatusNumber", "Life", "Machine", "Made", "Message", "Msr", "PageRun", "Pages", "Partition", "Port", "PortType",
    "Privilege", "Property", "Record", "Refused", "Register", "Reply", "Rule", "RuleNumber", "Run", "Status",
    "access_line", "boot_line", "effect", "hv_status_name", "hypercall_line", "is_call", "is_msr", "next",
    "pages", "rule_name", "rule_sentence", "serve", "status_name", "version",
    "version_number",
]
