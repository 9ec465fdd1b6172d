"""Each call against the built program. Run it in this folder, with the program's name in PATIENCE:

    PATIENCE=../crates/patience/out/patience python3 -m unittest discover tests
"""
from __future__ import annotations

import doctest
import os
import sys
import tempfile
import time
import unittest
from pathlib import Path

import patience_games
from patience_games import (
    Deal, DealRefused, FileFailed, LineRefused, Move, Outcome, ProgramNotFound, Rules, RulesRefused, Solved, Tableau,
    TimedOut, WordsRefused, deal, find_program, replay, solve, solve_many, spell,
)

TOP = Path(__file__).resolve().parent.parent.parent
GAMES = TOP / "games"

TWO_PILES = Rules(max_rank=2, tableau=Tableau(piles=2))
ACE_UNDER_TWO = Deal(tableau=[["AC", "2C"], []], foundations=[0, 2, 2, 2])
ONE_PILE = Rules(max_rank=2, tableau=Tableau(piles=1))
STUCK = Deal(tableau=[["AC", "2C"]], foundations=[0, 2, 2, 2])


class EachCall(unittest.TestCase):
    def test_a_winnable_deal_has_a_line_that_replays(self) -> None:
        verdict = solve(TWO_PILES, ACE_UNDER_TWO)
        self.assertEqual(verdict.outcome, Outcome.WINNABLE)
        self.assertEqual([str(move) for move in verdict.moves], ["t0 t1 1", "t0 f0", "t1 f0"])
        self.assertEqual((verdict.nodes, verdict.narrow), (3, 0))
        self.assertEqual(replay(TWO_PILES, ACE_UNDER_TWO, verdict.moves), 3)

    def test_the_three_outcomes(self) -> None:
        self.assertEqual(solve(ONE_PILE, STUCK).outcome, Outcome.UNWINNABLE)
        self.assertEqual(solve(TWO_PILES, ACE_UNDER_TWO, nodes=1).outcome, Outcome.UNDECIDED)

    def test_files_and_seeds_are_taken_as_well(self) -> None:
        verdict = solve(GAMES / "freecell.json", 1, narrow=100000, way="both", memo="lru", cache=100000)
        self.assertEqual(verdict.outcome, Outcome.WINNABLE)
        dealt = deal(GAMES / "freecell.json", 1)
        self.assertEqual(replay(GAMES / "freecell.json", dealt, verdict.moves), len(verdict.moves))

    def test_a_deal_reads_back(self) -> None:
        dealt = deal(GAMES / "klondike.json", 7)
        self.assertEqual(Deal.read(dealt.text()), dealt)

    def test_rules_of_each_game_read_back(self) -> None:
        for path in sorted(GAMES.glob("*.json")):
            with self.subTest(path.name):
                rules = spell(path)
                self.assertEqual(Rules.read(rules.text()), rules)
                self.assertEqual(spell(rules), rules)
                self.assertEqual(spell(Rules.from_file(path)), rules)


class EachRefusal(unittest.TestCase):
    def test_words(self) -> None:
        with self.assertRaises(WordsRefused) as refused:
            solve(TWO_PILES, ACE_UNDER_TWO, nodes=0)
        self.assertEqual((refused.exception.text, refused.exception.status), ("refused words bad-option-value 4", 10))

    def test_a_file_that_is_not_there(self) -> None:
        with self.assertRaises(FileFailed) as refused:
            solve("nowhere.json", 1)
        self.assertEqual(refused.exception.text, "failed rules")

    def test_rules(self) -> None:
        with self.assertRaises(RulesRefused):
            solve(Rules(decks=9), 1)

    def test_deal(self) -> None:
        with self.assertRaises(DealRefused) as refused:
            solve(TWO_PILES, Deal())
        self.assertEqual(refused.exception.text, "refused deal missing-card AC")

    def test_line(self) -> None:
        with self.assertRaises(LineRefused) as refused:
            replay(TWO_PILES, ACE_UNDER_TWO, [Move("t0", "f0")])
        self.assertEqual(refused.exception.text, "refused line illegal 0")

    def test_no_program(self) -> None:
        with self.assertRaises(ProgramNotFound):
            find_program("no-such-program-anywhere")

    def test_a_timeout_is_no_verdict_and_ends_the_program(self) -> None:
        before = time.monotonic()
        with self.assertRaises(TimedOut):
            solve(GAMES / "klondike.json", 3, nodes=10**12, cache=4000000, timeout=0.5)
        self.assertLess(time.monotonic() - before, 20)


class ManyDeals(unittest.TestCase):
    def test_results_come_for_each_deal_and_progress_is_told(self) -> None:
        told: list[int] = []
        solved: list[Solved] = list(solve_many(
            TWO_PILES, [ACE_UNDER_TWO, Deal(), ACE_UNDER_TWO], processes=2,
            progress=lambda done, one: told.append(done), nodes=100,
        ))
        self.assertEqual(sorted(one.place for one in solved), [0, 1, 2])
        self.assertEqual(told, [1, 2, 3])
        by_place = {one.place: one for one in solved}
        self.assertIsInstance(by_place[1].error, DealRefused)
        assert by_place[2].verdict is not None
        self.assertEqual(by_place[2].verdict.outcome, Outcome.WINNABLE)

    def test_no_more_deals_are_drawn_than_are_at_work(self) -> None:
        drawn: list[int] = []

        def deals() -> object:
            for seed in range(100):
                drawn.append(seed)
                yield ACE_UNDER_TWO

        results = solve_many(TWO_PILES, deals(), processes=2)  # type: ignore[arg-type]
        next(results)
        self.assertLessEqual(len(drawn), 4)
        results.close()  # type: ignore[attr-defined]


def load_tests(loader: unittest.TestLoader, tests: unittest.TestSuite, pattern: str | None) -> unittest.TestSuite:
    """The examples in the package's own texts are tests too; they are run at the top of the repository."""
    os.chdir(TOP)
    for path in sorted((TOP / "python" / "patience_games").glob("*.py")):
        name = "patience_games" if path.stem == "__init__" else f"patience_games.{path.stem}"
        __import__(name)
        tests.addTests(doctest.DocTestSuite(sys.modules[name]))
    return tests


class Building(unittest.TestCase):
    def test_the_package_is_built_with_no_network(self) -> None:
        sys.path.insert(0, str(TOP / "python"))
        import build_backend
        with tempfile.TemporaryDirectory() as folder:
            wheel = Path(folder) / build_backend.build_wheel(folder)
            archive = Path(folder) / build_backend.build_sdist(folder)
            self.assertGreater(wheel.stat().st_size, 1000)
            self.assertGreater(archive.stat().st_size, 1000)


if __name__ == "__main__":
    assert patience_games.__doc__
    unittest.main()
