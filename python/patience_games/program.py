"""The program's commands, one function each. A call is one run of the program, on files in a folder of its own."""
from __future__ import annotations

import os
import shutil
import subprocess
import tempfile
from collections.abc import Iterable
from typing import Literal, TypeAlias

from .answers import Outcome, Verdict
from .deals import Deal
from .errors import ProgramNotFound, Refused, TimedOut, refusal
from .moves import Move, line_text
from .rules import Rules

RulesLike: TypeAlias = Rules | str | os.PathLike[str]
DealLike: TypeAlias = Deal | int | str | os.PathLike[str]
Way: TypeAlias = Literal["foundations", "suits", "both"]
Memo: TypeAlias = Literal["linked", "lru"]


def find_program(program: str | os.PathLike[str] | None = None) -> str:
    """The program to run: the one that is given, else the one that `PATIENCE` names, else `patience` on the path.

    >>> find_program("no/such/program")
    Traceback (most recent call last):
    ...
    patience_games.errors.ProgramNotFound: no/such/program is no program
    """
    told = os.fspath(program) if program is not None else os.environ.get("PATIENCE", "patience")
    found = shutil.which(told)
    if found is None:
        raise ProgramNotFound(f"{told} is no program")
    return os.path.abspath(found)


class _Run:
    """One run of the program: its words, and the folder that its files lie in."""

    def __init__(self, command: str, program: str | os.PathLike[str] | None, timeout: float | None) -> None:
        self.program = find_program(program)
        self.timeout = timeout
        self.words = [command]
        self.folder = tempfile.TemporaryDirectory(prefix="patience-")

    def __enter__(self) -> _Run:
        return self

    def __exit__(self, *_: object) -> None:
        self.folder.cleanup()

    def add_text(self, name: str, text: str) -> None:
        """A file of this text is the next word."""
        path = os.path.join(self.folder.name, name)
        with open(path, "w", encoding="utf-8", newline="") as file:
            file.write(text)
        self.words.append(path)

    def add_file(self, path: str | os.PathLike[str]) -> None:
        """This file is the next word. Its name is made whole, so that it never begins with two dashes."""
        self.words.append(os.path.abspath(os.fspath(path)))

    def add_rules(self, rules: RulesLike) -> None:
        """The rules are the next word."""
        if isinstance(rules, Rules):
            self.add_text("rules.json", rules.text())
        else:
            self.add_file(rules)

    def add_deal(self, deal: DealLike) -> None:
        """The deal is the next word, or its seed is an option."""
        if isinstance(deal, Deal):
            self.add_text("deal.json", deal.text())
        elif isinstance(deal, int):
            self.words += ["--seed", str(deal)]
        else:
            self.add_file(deal)

    def add_options(self, **options: int | str | None) -> None:
        """Each option that is given is two words."""
        for name, value in options.items():
            if value is not None:
                self.words += [f"--{name}", str(value)]

    def lines(self) -> list[str]:
        """The lines that the program printed. Any status but 0 is an exception."""
        try:
            done = subprocess.run(
                [self.program, *self.words], stdin=subprocess.DEVNULL, stdout=subprocess.PIPE,
                stderr=subprocess.DEVNULL, timeout=self.timeout, check=False,
            )
        except subprocess.TimeoutExpired:
            raise TimedOut(self.timeout or 0) from None
        text = done.stdout.decode("utf-8", "replace")
        if done.returncode != 0:
            raise refusal(text.rstrip("\n"), done.returncode)
        return text.split("\n")[:-1]


def _number(line: str, word: str) -> int:
    """The number of a line such as `nodes 7`."""
    found, number = line.split(" ")
    if found != word:
        raise Refused(f"the program printed {line!r} in place of {word}", 0)
    return int(number)


def _moves(lines: list[str]) -> tuple[Move, ...]:
    return tuple(Move.read(line) for line in lines)


def solve(
    rules: RulesLike,
    deal: DealLike,
    *,
    nodes: int | None = None,
    cache: int | None = None,
    narrow: int | None = None,
    way: Way | None = None,
    memo: Memo | None = None,
    timeout: float | None = None,
    program: str | os.PathLike[str] | None = None,
) -> Verdict:
    """Decides a deal: that of a `Deal`, a file's name, or the number of a seed.

    An option that is None has the program's default. If `timeout` seconds pass, the program is ended and `TimedOut` is
    raised: that is no verdict, while `undecided` is one.

    >>> solve(Rules(max_rank=1), Deal(foundations=[1, 1, 1, 1])).outcome
    <Outcome.WINNABLE: 'winnable'>
    """
    with _Run("solve", program, timeout) as run:
        run.add_rules(rules)
        run.add_deal(deal)
        run.add_options(nodes=nodes, cache=cache, narrow=narrow, way=way, memo=memo)
        lines = run.lines()
    return Verdict(
        Outcome(lines[0]), _number(lines[1], "nodes"), _number(lines[2], "narrow"), _moves(lines[4:]),
    )


def replay(
    rules: RulesLike,
    deal: Deal | str | os.PathLike[str],
    moves: Iterable[Move | str],
    *,
    timeout: float | None = None,
    program: str | os.PathLike[str] | None = None,
) -> int:
    """Plays the moves from the deal, and gives their number if they win. If they do not, it raises `LineRefused`.

    >>> replay(Rules(max_rank=1), Deal(foundations=[1, 1, 1, 1]), [])
    0
    """
    with _Run("replay", program, timeout) as run:
        run.add_rules(rules)
        run.add_deal(deal)
        run.add_text("line.txt", line_text(moves))
        lines = run.lines()
    return _number(lines[1], "moves")


def deal(
    rules: RulesLike, seed: int, *, timeout: float | None = None, program: str | os.PathLike[str] | None = None,
) -> Deal:
    """The deal of a seed: the same for ever.

    >>> from patience_games import Stock
    >>> deal(Rules(max_rank=1, stock=Stock(size=4)), 42).stock
    ['AC', 'AS', 'AD', 'AH']
    """
    with _Run("deal", program, timeout) as run:
        run.add_rules(rules)
        run.add_options(seed=seed)
        return Deal.read(run.lines()[0])


def spell(
    rules: RulesLike, *, timeout: float | None = None, program: str | os.PathLike[str] | None = None,
) -> Rules:
    """The rules as the program understands them, with every key that was left to its default.

    >>> spell(Rules()).tableau.group_build
    'none'
    """
    with _Run("rules", program, timeout) as run:
        run.add_rules(rules)
        return Rules.read(run.lines()[0])
