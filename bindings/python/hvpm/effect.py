"""What an event changed in any partition: messages, event flags, pending vectors, pages and processors.

Anything that the effect doesn't name is unchanged, except for the vector that `take_interrupt` returns, which
is no longer pending."""
from __future__ import annotations

from dataclasses import dataclass
from typing import FrozenSet, Optional, Union


@dataclass(frozen=True)
class Nothing:
    """None of these changed. Refused events always have this effect."""


@dataclass(frozen=True)
class Flag:
    """An event flag that was set, or cleared if `is_set` is false."""

    sint: int
    flag: int
    is_set: bool


@dataclass(frozen=True)
class Synic:
    """Messages, an event flag or vectors changed at one processor, which may be the caller."""

    partition: int
    vp: int
    shown: FrozenSet[int] = frozenset()
    """The SINTs whose slot changed: it shows another message, or is now empty."""
    waiting: FrozenSet[int] = frozenset()
    """The SINTs at which one more message waits, behind that in the slot."""
    flag: Optional[Flag] = None
    """The event flag that changed."""
    raised: FrozenSet[int] = frozenset()
    """The vectors that were raised. They may have been pending already."""
    freed: Optional[int] = None
    """The port of that partition whose message left its slot. If it still exists, it can take one more."""


@dataclass(frozen=True)
class Page:
    """A page moved to another partition, or into or out of a pool."""

    page: int
    partition: int
    """The partition that now owns it."""
    pooled: bool
    """Whether the page is in that partition's pool. Otherwise it is loose."""


@dataclass(frozen=True)
class Pages:
    """A partition was deleted. Its pages, at least one, are now loose pages of another partition."""

    source: int
    """The deleted partition."""
    target: int
    """The partition that now owns the pages."""


@dataclass(frozen=True)
class Processor:
    """A processor was created or deleted. It has no message, event flag or pending vector."""

    partition: int
    vp: int


@dataclass(frozen=True)
class Partition:
    """A partition was finalized. Its processors, at least one, were removed with their messages, flags and
    vectors."""

    partition: int


Effect = Union[Nothing, Synic, Page, Pages, Processor, Partition]
