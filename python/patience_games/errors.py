"""What a call raises in place of an answer."""
from __future__ import annotations


class PatienceError(Exception):
    """Whatever a call of this package raises on its own."""


class ProgramNotFound(PatienceError):
    """There is no program: none was given, `PATIENCE` names none, and none is on the path."""


class TimedOut(PatienceError):
    """The call's `timeout` passed. The program was ended, and nothing is known of the deal."""

    def __init__(self, seconds: float) -> None:
        super().__init__(f"no answer within {seconds} seconds")
        self.seconds = seconds


class Refused(PatienceError):
    """The program refused its words or one of its files, or failed.

    `text` is the line that it printed, as `refused deal missing-card 7H`, and `status` its exit status.
    """

    def __init__(self, text: str, status: int) -> None:
        super().__init__(text or f"exit status {status}")
        self.text = text
        self.status = status


class WordsRefused(Refused):
    """A number or a word is none that the program takes: status 10."""


class FileFailed(Refused):
    """A file could not be read: status 11."""


class RulesRefused(Refused):
    """The rules have a fault: status 12."""


class DealRefused(Refused):
    """The deal has a fault, or no seed deals these rules: status 13."""


class LineRefused(Refused):
    """The moves are no line to a won board: status 14."""


class OutOfMemory(Refused):
    """The program found no memory: status 16."""


_BY_STATUS: dict[int, type[Refused]] = {
    10: WordsRefused,
    11: FileFailed,
    12: RulesRefused,
    13: DealRefused,
    14: LineRefused,
    16: OutOfMemory,
}


def refusal(text: str, status: int) -> Refused:
    """The exception for what the program printed and its status.

    >>> refusal("refused deal missing-card AC", 13)
    DealRefused('refused deal missing-card AC')
    """
    return _BY_STATUS.get(status, Refused)(text, status)
