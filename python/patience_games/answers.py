"""What the program answers."""
from __future__ import annotations

from dataclasses import dataclass
from enum import Enum

from .moves import Move


class Outcome(Enum):
    """What is known of a deal. `UNDECIDED` says that the stated number of positions was spent, and nothing else."""

    WINNABLE = "winnable"
    UNWINNABLE = "unwinnable"
    UNDECIDED = "undecided"


@dataclass(frozen=True)
class Verdict:
    """What `solve` says of a deal.

    `moves` is a line that wins if the deal is winnable, else empty. `nodes` counts the positions that the search
    expanded, and `narrow` those of a restricted search before it.
    """

    outcome: Outcome
    nodes: int
    narrow: int
    moves: tuple[Move, ...] = ()
