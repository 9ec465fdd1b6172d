"""The rules of a game, with the keys and defaults of a rules file."""
from __future__ import annotations

import json
import os
from dataclasses import dataclass, field
from typing import Any, Literal, TypeAlias

Build: TypeAlias = Literal["none", "any-suit", "red-black", "same-suit"]


@dataclass(frozen=True)
class Tableau:
    """The piles: how many, how they are dealt, and what goes on what. `group_build` of None is that of `build`."""

    piles: int = 0
    layout: Literal["even", "triangle"] = "even"
    face: Literal["all up", "top up"] = "all up"
    build: Build = "none"
    wrap: bool = False
    groups: Literal["one", "run"] = "one"
    group_build: Build | None = None
    spaces: str = "any"

    def _keys(self) -> dict[str, Any]:
        group_build = self.build if self.group_build is None else self.group_build
        return {
            "piles": self.piles, "layout": self.layout, "face": self.face, "build": self.build, "wrap": self.wrap,
            "groups": self.groups, "group build": group_build, "spaces": self.spaces,
        }


@dataclass(frozen=True)
class Foundations:
    """The goal of most games: all cards go home, suit by suit, from the base rank up."""

    base: int | str = 1
    started: bool = False
    take_back: bool = False
    complete_runs: bool = False


@dataclass(frozen=True)
class Hole:
    """The goal of Black Hole and Golf: all cards go into the hole, one rank up or down. `start` is a card or "deal"."""

    wrap: bool = True
    start: str = "deal"


@dataclass(frozen=True)
class Sequences:
    """The goal of Gaps: each row has one suit in order from the two."""


@dataclass(frozen=True)
class Cells:
    """How many cells there are, and how many of them a dealt game fills."""

    count: int = 0
    filled: int = 0


@dataclass(frozen=True)
class Reserve:
    """How many cards the reserve has, and whether it is one stack of which the top alone can be taken."""

    size: int = 0
    stacked: bool = False


@dataclass(frozen=True)
class Stock:
    """How many cards the stock has, where it deals them to, how many at once, and how often it comes again."""

    size: int = 0
    to: Literal["waste", "tableau", "hole"] = "waste"
    draw: int = 1
    redeals: int | Literal["unlimited"] = 0


Goal: TypeAlias = Foundations | Hole | Sequences


@dataclass(frozen=True)
class Rules:
    """The rules of a game.

    What is not given has the default of a rules file. The program judges whether the rules are free of conflicts.

    >>> freecell = Rules(tableau=Tableau(piles=8, build="red-black"), cells=Cells(4))
    >>> Rules.read('{"tableau":{"piles":8,"build":"red-black"},"cells":{"count":4}}') == freecell
    True
    """

    decks: int = 1
    max_rank: int = 13
    tableau: Tableau = field(default_factory=Tableau)
    goal: Goal = field(default_factory=Foundations)
    cells: Cells = field(default_factory=Cells)
    reserve: Reserve = field(default_factory=Reserve)
    stock: Stock = field(default_factory=Stock)

    def text(self) -> str:
        """The rules as a rules file, in the one spelling that the program prints.

        >>> Rules(max_rank=1, stock=Stock(size=4)).text()[:50]
        '{"cells":{"count":0,"filled":0},"decks":1,"foundat'
        """
        tree: dict[str, Any] = {
            "decks": self.decks,
            "max rank": self.max_rank,
            "tableau": self.tableau._keys(),
            "cells": {"count": self.cells.count, "filled": self.cells.filled},
            "reserve": {"size": self.reserve.size, "stacked": self.reserve.stacked},
            "stock": {
                "size": self.stock.size, "to": self.stock.to, "draw": self.stock.draw, "redeals": self.stock.redeals,
            },
        }
        match self.goal:
            case Foundations(base, started, take_back, complete_runs):
                tree["foundations"] = {
                    "base": base, "started": started, "take back": take_back, "complete runs": complete_runs,
                }
            case Hole(wrap, start):
                tree["hole"] = {"wrap": wrap, "start": start}
            case Sequences():
                tree["sequences"] = {}
        return json.dumps(tree, sort_keys=True, separators=(",", ":"))

    @staticmethod
    def read(text: str | bytes) -> Rules:
        """The rules of a rules file's text. A key or a value that this package does not know is a ValueError; whether
        the rules are sound the program says.

        >>> Rules.read('{"hole":{"start":"AS"}}').goal
        Hole(wrap=True, start='AS')
        """
        tree = json.loads(text)
        if not isinstance(tree, dict):
            raise ValueError("rules are one JSON object")
        parts = {name: tree.pop(name) for name in list(tree) if isinstance(tree[name], dict)}
        numbers = {name.replace(" ", "_"): value for name, value in tree.items()}
        goals = [name for name in ("foundations", "hole", "sequences") if name in parts]
        if len(goals) > 1:
            raise ValueError("rules have one goal: " + " and ".join(goals))
        goal = _part(goals[0], parts.pop(goals[0])) if goals else Foundations()
        try:
            return Rules(**numbers, goal=goal, **{name: _part(name, value) for name, value in parts.items()})
        except TypeError as error:
            raise ValueError(f"rules have no such key: {error}") from None

    @staticmethod
    def from_file(path: str | os.PathLike[str]) -> Rules:
        """The rules of a file."""
        with open(path, "rb") as file:
            return Rules.read(file.read())


_PARTS: dict[str, Any] = {
    "tableau": Tableau, "foundations": Foundations, "hole": Hole, "sequences": Sequences, "cells": Cells,
    "reserve": Reserve, "stock": Stock,
}


def _part(name: str, keys: dict[str, Any]) -> Any:
    """A part of the rules by its name in a file."""
    try:
        return _PARTS[name](**{key.replace(" ", "_"): value for key, value in keys.items()})
    except (KeyError, TypeError):
        raise ValueError(f"the part {name} has a key that is not known: {', '.join(keys)}") from None
