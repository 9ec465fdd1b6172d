"""Patience games from Python.

Each call is one run of the program `patience`, whose verdicts are proved. It is found by the variable `PATIENCE`, on the
path, or by the argument `program`. The calls are `solve`, `replay`, `deal` and `spell`, and
`solve_many` for many deals on several processors.

>>> from patience_games import Cells, Rules, Tableau, solve
>>> freecell = Rules(tableau=Tableau(piles=8, build="red-black"), cells=Cells(4))
>>> solve(freecell, 1, narrow=100000).outcome.value
'winnable'
"""
from .answers import Outcome, Verdict
from .deals import Deal
from .errors import (
    DealRefused, FileFailed, LineRefused, OutOfMemory, PatienceError, ProgramNotFound, Refused, RulesRefused, TimedOut,
    WordsRefused,
)
from .many import Solved, solve_many
from .moves import Move, line_text
from .program import deal, find_program, replay, solve, spell
from .rules import Cells, Foundations, Hole, Reserve, Rules, Sequences, Stock, Tableau

__all__ = [
    "Cells", "Deal", "DealRefused", "FileFailed", "Foundations", "Hole", "LineRefused", "Move", "OutOfMemory",
    "Outcome", "PatienceError", "ProgramNotFound", "Refused", "Reserve", "Rules", "RulesRefused", "Sequences",
    "Solved", "Stock", "Tableau", "TimedOut", "Verdict", "WordsRefused", "deal", "find_program", "line_text",
    "replay", "solve", "solve_many", "spell",
]
