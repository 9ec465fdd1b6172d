"""Moves, as the program writes them."""
from __future__ import annotations

import re
from collections.abc import Iterable
from dataclasses import dataclass

_PLACE = re.compile(r"[tcrfs](0|[1-9][0-9]{0,2})|w|h")


@dataclass(frozen=True)
class Move:
    """One legal move: cards go from a place to another, or the stock deals, or the waste becomes the stock again.

    `source` and `target` are `t0`, `t1`, .. for the piles of the tableau, `c` for cells, `f` for foundations, `r` for
    the reserve, `s` for the slots of rows, `w` for the waste and `h` for the hole. The two moves of the stock have the
    source `deal` or `redeal` and no target.

    >>> Move.read("t4 t10 3")
    Move(source='t4', target='t10', count=3)
    >>> str(Move("t0", "f2"))
    't0 f2'
    >>> str(Move("deal"))
    'deal'
    """

    source: str
    target: str = ""
    count: int = 1

    def __post_init__(self) -> None:
        if self.source in ("deal", "redeal"):
            if self.target or self.count != 1:
                raise ValueError(f"{self.source} has no target and no count")
            return
        for place in (self.source, self.target):
            if not _PLACE.fullmatch(place) or int(place[1:] or 0) > 255:
                raise ValueError(f"{place!r} is no place")
        if not 0 <= self.count <= 255:
            raise ValueError(f"{self.count} is no count of cards")

    def __str__(self) -> str:
        if not self.target:
            return self.source
        between_piles = self.source[0] == "t" and self.target[0] == "t"
        count = f" {self.count}" if between_piles or self.count != 1 else ""
        return f"{self.source} {self.target}{count}"

    @staticmethod
    def read(text: str) -> Move:
        """The move of a text. Each move has one text alone.

        >>> Move.read("t0 t1")
        Traceback (most recent call last):
        ...
        ValueError: 't0 t1' is no move
        """
        words = text.split(" ")
        if len(words) == 3 and re.fullmatch(r"0|[1-9][0-9]{0,2}", words[2]):
            move = Move(words[0], words[1], int(words[2]))
        elif len(words) == 2:
            move = Move(words[0], words[1])
        elif text in ("deal", "redeal"):
            move = Move(text)
        else:
            raise ValueError(f"{text!r} is no move")
        if str(move) != text:
            raise ValueError(f"{text!r} is no move")
        return move


def line_text(moves: Iterable[Move | str]) -> str:
    """The moves as a line file: each on a line of its own.

    >>> line_text([Move("t0", "h"), "t1 h"])
    't0 h\\nt1 h\\n'
    """
    return "".join(f"{move}\n" for move in moves)
