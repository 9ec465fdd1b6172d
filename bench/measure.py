#!/usr/bin/env python3
"""Solves stated deals, and prints nodes a second of processor time, bytes of memory and the verdict.

usage: bench/measure.py [PROGRAM [PROGRAM]] [--nodes N] [--cache N] [--rounds N] [--memos]

PROGRAM is the built program, crates/patience/out/patience if none is given. With two, the first is the one of before:
both solve each deal in turn, as often as there are rounds, and the last column says how many times as many nodes a
second the later one expands. A deal that the one of before refuses is left out of the comparison. N is 100,000 nodes and
5 rounds if left out, and the cache is the program's own.

With --memos one program solves each deal with both memos, `lru` first, at three sizes of the cache, and the last column
but one says how many bytes each remembered board takes: what the run held above the run with a cache of one board,
divided by the boards that were remembered.

The time is what the processor spent on the run, in the program and for it in the system, as `wait4` counts it, so that
other work of the machine counts for little; the least of all rounds is taken. The memory is the most that the system
counted for the run while it went on (the high-water mark of its resident set, on Linux), the program's own pages
included.
"""
import os
import sys
import tempfile
import time

TOP = os.path.dirname(os.path.dirname(os.path.abspath(__file__)))

DEALS = [
    ("FreeCell", "freecell.json", "freecell-1.json"),
    ("Black Hole", "black-hole.json", "black-hole-hard.json"),
    ("Beleaguered Castle", "beleaguered-castle.json", "beleaguered-castle-deep.json"),
    ("Klondike, open", "klondike.json", "klondike-open.json"),
    ("Klondike, seed 1", "klondike.json", 1),
    ("Klondike, seed 2", "klondike.json", 2),
    ("Spider", "spider.json", "spider-open.json"),
    ("Golf, seed 1", "golf.json", 1),
    ("Gaps, seed 1", "gaps.json", 1),
    ("Little Cell, lost", "little-cell.json", "little-cell-lost.json"),
    ("Baker's Game, 9", "bakers-game.json", 9),
    ("ForeCell, 5", "forecell.json", 5),
    ("Eight Off, 5", "eight-off.json", 5),
    ("Seahaven Towers, 3", "seahaven-towers.json", 3),
    ("Penguin, 7", "penguin.json", 7),
    ("Streets and Alleys, 3", "streets-and-alleys.json", 3),
    ("Flower Garden, 1", "flower-garden.json", 1),
    ("King Albert, 1", "king-albert.json", 1),
    ("Baker's Dozen, 1", "bakers-dozen.json", 1),
]

CACHES = ["1", "100000", "4000000"]


def high_water(process):
    """The most bytes that the process has held so far, and 0 if it is gone."""
    try:
        with open(f"/proc/{process}/status") as status:
            for line in status:
                if line.startswith("VmHWM:"):
                    return int(line.split()[1]) * 1024
    except OSError:
        pass
    return 0


def run(words):
    """The output, the seconds of processor time and the bytes of one run, or None if its status is not 0."""
    with tempfile.TemporaryFile() as out:
        process = os.posix_spawn(words[0], words, os.environ, file_actions=[(os.POSIX_SPAWN_DUP2, out.fileno(), 1)])
        memory, ended = 0, 0
        while ended == 0:
            memory = max(memory, high_water(process))
            time.sleep(0.002)
            ended, status, spent = os.wait4(process, os.WNOHANG)
        out.seek(0)
        text = out.read().decode()
    return (text, spent.ru_utime + spent.ru_stime, memory) if status == 0 else None


def measure(runs, rounds):
    """The first output, the least seconds and the most bytes of each run, which take turns; None for a refused one."""
    found = [None] * len(runs)
    for _ in range(rounds):
        for i, words in enumerate(runs):
            one = run(words)
            if one is None:
                continue
            if found[i] is None:
                found[i] = one
            text, seconds, held = found[i]
            if one[0] != text:
                sys.exit(f"{' '.join(words)}: two runs gave two answers")
            found[i] = text, min(seconds, one[1]), max(held, one[2])
    return found


def start_of(rules, deal):
    """The words that name rules and start."""
    rules = os.path.join(TOP, "games", rules)
    if isinstance(deal, int):
        return [rules, "--seed", str(deal)]
    return [rules, os.path.join(TOP, "games", "deals", deal)]


def head_of(text):
    """The verdict and the nodes of an output."""
    lines = text.split("\n")
    return lines[0], int(lines[1].split()[1])


def compare_programs(programs, nodes, cache, rounds):
    print(f"{'game':21} {'verdict':11} {'nodes':>10} {'seconds':>8} {'nodes/s':>9} {'bytes':>13} {'ratio':>6}")
    for game, rules, deal in DEALS:
        words = ["solve", *start_of(rules, deal), "--nodes", nodes, *cache]
        found = measure([[program, *words] for program in programs], rounds)
        rates = []
        for one in found:
            if one is None:
                print(f"{game:21} refused")
                continue
            verdict, spent = head_of(one[0])
            rates.append(spent / one[1])
            ratio = f"{rates[-1] / rates[0]:6.2f}" if len(rates) > 1 else ""
            print(f"{game:21} {verdict:11} {spent:10,} {one[1]:8.3f} {rates[-1]:9,.0f} {one[2]:13,} {ratio}")


def compare_memos(program, nodes, rounds):
    print(f"{'game':21} {'cache':>9} {'memo':6} {'nodes':>10} {'nodes/s':>9} {'bytes':>13} {'a key':>6} {'ratio':>6}")
    for game, rules, deal in DEALS:
        least = {}
        for cache in CACHES:
            words = [program, "solve", *start_of(rules, deal), "--nodes", nodes, "--cache", cache, "--memo"]
            found = measure([[*words, memo] for memo in ("lru", "linked")], rounds)
            if found[0][0] != found[1][0]:
                print(f"{game}: the memos differ in their answers")
            rates = [head_of(text)[1] / seconds for text, seconds, _ in found]
            for i, memo in enumerate(("lru", "linked")):
                verdict, spent = head_of(found[i][0])
                least.setdefault(memo, found[i][2])
                kept = min(spent, int(cache))
                a_key = f"{(found[i][2] - least[memo]) / kept:6.0f}" if kept > 1000 else f"{'':6}"
                ratio = f"{rates[1] / rates[0]:6.2f}" if i else ""
                print(f"{game:21} {cache:>9} {memo:6} {spent:10,} {rates[i]:9,.0f} {found[i][2]:13,} {a_key} {ratio}")


def main():
    words = sys.argv[1:]
    programs, nodes, cache, rounds, memos = [], "100000", [], 5, False
    while words:
        word = words.pop(0)
        if word == "--nodes":
            nodes = words.pop(0)
        elif word == "--cache":
            cache = ["--cache", words.pop(0)]
        elif word == "--rounds":
            rounds = int(words.pop(0))
        elif word == "--memos":
            memos = True
        else:
            programs.append(os.path.abspath(word))
    programs = programs or [os.path.join(TOP, "crates", "patience", "out", "patience")]
    if memos:
        compare_memos(programs[-1], nodes, rounds)
    else:
        compare_programs(programs, nodes, cache, rounds)


if __name__ == "__main__":
    main()
