#!/usr/bin/env python3
"""Solves forty seeds of FreeCell and of Klondike with and without a restricted search first, and prints how many were decided.

usage: bench/narrow.py [PROGRAM] [--nodes N] [--narrow N] [--seeds N]

PROGRAM is the built program, crates/patience/out/patience if none is given. N is 100,000 nodes, 100,000 narrow nodes and
40 seeds, from 1 on, if left out. Each seed is solved without a restricted search and with each of its three ways. Each
line that wins is replayed on the deal of its seed by the program's own `replay`, which knows nothing of any search.
The seconds are processor time of the solving alone, summed over the seeds.
"""
import os
import subprocess
import sys
import tempfile

TOP = os.path.dirname(os.path.dirname(os.path.abspath(__file__)))
GAMES = [("FreeCell", "freecell.json"), ("Klondike", "klondike.json")]
WAYS = ["none", "foundations", "suits", "both"]


def run(words):
    """The output of a run that ends with status 0, and its seconds of processor time."""
    with tempfile.TemporaryFile() as out:
        process = os.posix_spawn(words[0], words, os.environ, file_actions=[(os.POSIX_SPAWN_DUP2, out.fileno(), 1)])
        _, status, spent = os.wait4(process, 0)
        out.seek(0)
        text = out.read().decode()
    if status != 0:
        sys.exit(f"{' '.join(words)}: status {os.waitstatus_to_exitcode(status)}: {text}")
    return text, spent.ru_utime + spent.ru_stime


def replays(program, rules, seed, text):
    """Whether the line of the output wins on the deal of the seed."""
    with tempfile.TemporaryDirectory() as room:
        deal, line = os.path.join(room, "deal.json"), os.path.join(room, "line")
        with open(deal, "w") as file:
            file.write(run([program, "deal", rules, "--seed", str(seed)])[0])
        with open(line, "w") as file:
            file.write(text)
        ran = subprocess.run([program, "replay", rules, deal, line], capture_output=True, text=True)
        return ran.stdout.startswith("wins\n")


def main():
    words = sys.argv[1:]
    program, nodes, narrow, seeds = os.path.join(TOP, "crates", "patience", "out", "patience"), "100000", "100000", 40
    while words:
        word = words.pop(0)
        if word == "--nodes":
            nodes = words.pop(0)
        elif word == "--narrow":
            narrow = words.pop(0)
        elif word == "--seeds":
            seeds = int(words.pop(0))
        else:
            program = os.path.abspath(word)
    print(f"{'game':10} {'way':12} {'winnable':>8} {'unwinnable':>10} {'undecided':>9} {'narrow wins':>11} {'replayed':>8} {'seconds':>8}")
    for game, rules in GAMES:
        rules = os.path.join(TOP, "games", rules)
        for way in WAYS:
            counts, by_narrow, replayed, seconds = {"winnable": 0, "unwinnable": 0, "undecided": 0}, 0, 0, 0.0
            first = [] if way == "none" else ["--narrow", narrow, "--way", way]
            for seed in range(1, seeds + 1):
                text, spent = run([program, "solve", rules, "--seed", str(seed), "--nodes", nodes, *first])
                lines = text.split("\n", 2)
                counts[lines[0]] += 1
                seconds += spent
                if lines[0] == "winnable":
                    by_narrow += lines[1] == "nodes 0"
                    replayed += replays(program, rules, seed, text)
            won, lost, open_ = counts["winnable"], counts["unwinnable"], counts["undecided"]
            print(f"{game:10} {way:12} {won:8} {lost:10} {open_:9} {by_narrow:11} {replayed:8} {seconds:8.1f}", flush=True)


if __name__ == "__main__":
    main()
