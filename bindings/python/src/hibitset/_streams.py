"""What is wrong with bytes that are no stream."""
from __future__ import annotations

import enum

__all__ = ["Fault", "StreamError"]


class Fault(enum.IntEnum):
    """What is wrong with bytes that are no stream of members below the bound."""

    MEMBER_OUT_OF_RANGE = 0
    TOO_SHORT = 1
    TOO_LONG = 2
    BAD_COOKIE = 3
    TOO_MANY_CONTAINERS = 4
    KEYS_NOT_ASCENDING = 5
    KEY_OUT_OF_RANGE = 6
    WRONG_OFFSET = 7
    WRONG_CARDINALITY = 8
    NOT_ASCENDING = 9
    RUNS_NOT_APART = 10
    RUN_PAST_END = 11


class StreamError(ValueError):
    """Bytes that are no stream of members below the bound: fault says what is wrong, at in which byte it is seen."""

    def __init__(self, fault: Fault, at: int) -> None:
        super().__init__(fault, at)
        self.fault = Fault(fault)
        self.at = at

    def __str__(self) -> str:
        fault = self.fault.name.lower().replace("_", " ")
        return f"not a Roaring stream of members in range: {fault}, at byte {self.at}"
