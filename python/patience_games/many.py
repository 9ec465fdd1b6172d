"""Many deals on several processors."""
from __future__ import annotations

import os
from collections.abc import Callable, Iterable, Iterator
from concurrent.futures import FIRST_COMPLETED, Future, ThreadPoolExecutor, wait
from dataclasses import dataclass
from typing import Any

from .answers import Verdict
from .errors import PatienceError
from .program import DealLike, RulesLike, solve


@dataclass(frozen=True)
class Solved:
    """What came of one deal: its place among the deals, the deal, and a verdict or what was raised."""

    place: int
    deal: DealLike
    verdict: Verdict | None
    error: PatienceError | None


def _solve_one(rules: RulesLike, place: int, deal: DealLike, options: dict[str, Any]) -> Solved:
    try:
        return Solved(place, deal, solve(rules, deal, **options), None)
    except PatienceError as error:
        return Solved(place, deal, None, error)


def solve_many(
    rules: RulesLike,
    deals: Iterable[DealLike],
    *,
    processes: int | None = None,
    progress: Callable[[int, Solved], object] | None = None,
    **options: Any,
) -> Iterator[Solved]:
    """Solves each deal, `processes` of them at a time (as many as there are processors if it is None).

    Results come as they are done, in no order; `place` tells which deal each is of. After each one `progress` is called
    with how many are done and the result. The options are those of `solve`. No more deals are drawn from `deals` than
    can be at work. What `solve` raises of one deal stands in its result, and the others go on.

    >>> rules = "games/freecell.json"
    >>> done = solve_many(rules, [1, 2], processes=2, narrow=100000)
    >>> sorted(one.place for one in done if one.verdict and one.verdict.moves)
    [0, 1]
    """
    at_once = processes or os.cpu_count() or 1
    rest = enumerate(deals)
    done = 0
    with ThreadPoolExecutor(max_workers=at_once) as pool:
        running: set[Future[Solved]] = set()

        def begin_one() -> None:
            for place, deal in rest:
                running.add(pool.submit(_solve_one, rules, place, deal, options))
                return

        for _ in range(at_once):
            begin_one()
        while running:
            ended, _still = wait(running, return_when=FIRST_COMPLETED)
            for future in ended:
                running.remove(future)
                begin_one()
                done += 1
                result = future.result()
                if progress is not None:
                    progress(done, result)
                yield result
