"""A position of a game, with the keys of a deal file."""
from __future__ import annotations

import json
import os
from collections.abc import Sequence
from dataclasses import dataclass
from typing import Any

_KEYS = {
    "tableau": "tableau", "face down": "face_down", "cells": "cells", "reserve": "reserve", "stock": "stock",
    "waste": "waste", "redeals left": "redeals_left", "foundations": "foundations", "hole": "hole", "rows": "rows",
    "base": "base",
}


@dataclass(frozen=True)
class Deal:
    """Where each card lies. All lists go from the bottom up; a card is a text such as "TS"; None is an empty place.

    What is None has the default of a deal file: `face_down` that of the rules' `face`, `redeals_left` all that the
    rules allow, `foundations` none or, if they are started, one card each.

    >>> Deal(tableau=[["AC", "2C"], []], foundations=[0, 2, 2, 2]).text()
    '{"foundations":[0,2,2,2],"tableau":[["AC","2C"],[]]}'
    """

    tableau: Sequence[Sequence[str]] | None = None
    face_down: Sequence[int] | None = None
    cells: Sequence[str | None] | None = None
    reserve: Sequence[str | None] | None = None
    stock: Sequence[str] | None = None
    waste: Sequence[str] | None = None
    redeals_left: int | None = None
    foundations: Sequence[int] | None = None
    hole: Sequence[str] | None = None
    rows: Sequence[Sequence[str | None]] | None = None
    base: int | None = None

    def text(self) -> str:
        """The deal as a deal file."""
        told = {key: getattr(self, name) for key, name in _KEYS.items()}
        tree = {key: value for key, value in told.items() if value is not None}
        return json.dumps(tree, sort_keys=True, separators=(",", ":"))

    @staticmethod
    def read(text: str | bytes) -> Deal:
        """The deal of a deal file's text. A key that is not known is a ValueError; the program judges the rest.

        >>> Deal.read('{"stock":["AC","AD","AH","AS"]}').stock
        ['AC', 'AD', 'AH', 'AS']
        """
        tree: Any = json.loads(text)
        if not isinstance(tree, dict):
            raise ValueError("a deal is one JSON object")
        unknown = [key for key in tree if key not in _KEYS]
        if unknown:
            raise ValueError(f"a deal has no key {unknown[0]!r}")
        return Deal(**{_KEYS[key]: value for key, value in tree.items()})

    @staticmethod
    def from_file(path: str | os.PathLike[str]) -> Deal:
        """The deal of a file."""
        with open(path, "rb") as file:
            return Deal.read(file.read())
