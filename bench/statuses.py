#!/usr/bin/env python3
"""Runs the program once for each exit status and a few times more, and compares how it ended and all that it wrote.

usage: bench/statuses.py [PROGRAM]

PROGRAM is the built program, crates/patience/out/patience if left out. The last line is `N passed, M failed`. What is
compared is the status, the standard output and the standard error, which has the usage where the words name no job, and
else nothing. Then a large deal is solved by its seed, and each win is replayed from the position that is dealt.
A full disk is `/dev/full`, and want of memory is a limit on the address space, so the script wants Linux.
"""
import os
import re
import resource
import subprocess
import sys
import tempfile

TOP = os.path.dirname(os.path.dirname(os.path.abspath(__file__)))

RULES = b'{"max rank":2,"tableau":{"piles":2}}'
DEAL = b'{"tableau":[["AC","2C"]],"foundations":[0,2,2,2]}'
LINE = b"t0 t1 1\n"

FREECELL = b'{"tableau":{"piles":8,"build":"red-black"},"cells":{"count":4}}'

HOLE = b'{"max rank":2,"tableau":{"piles":4,"spaces":"none"},"hole":{"start":"AS"}}'

FILES = {
    "rules": RULES,
    "deal": DEAL,
    "line": LINE,
    "cut": RULES[:-1],
    "empty": b"{}",
    "freecell": FREECELL,
    "hole": HOLE,
}

WON = b"winnable\nnodes 3\nnarrow 0\nmoves 3\nt0 t1 1\nt0 f0\nt1 f0\n"

# A line of more than 256 bytes.
SPELLED = (
    b'{"cells":{"count":0,"filled":0},"decks":1,"hole":{"start":"AS","wrap":true},"max rank":2,'
    b'"reserve":{"size":0,"stacked":false},"stock":{"draw":1,"redeals":0,"size":0,"to":"waste"},'
    b'"tableau":{"build":"none","face":"all up","group build":"none","groups":"one","layout":"even","piles":4,'
    b'"spaces":"none","wrap":false}}\n'
)

# What is written to the standard error with status 10.
USAGE = b"""usage: patience solve RULES DEAL [OPTIONS]
       patience solve RULES --seed N [OPTIONS]
       patience deal RULES --seed N
       patience replay RULES DEAL LINE
       patience rules RULES
OPTIONS: [--nodes N] [--cache N] [--memo linked|lru] [--narrow N] [--way foundations|suits|both]
RULES, DEAL and LINE are names of files. The manual is docs/FORMATS.md in the program's repository.
"""

# Seed 1 of FreeCell is solved with so many nodes.
NODES = [1_000, 100_000, 1_000_000]

# What is shown, the words, the status, what is printed, and the limit on the address space in bytes.
ROWS = [
    ("a verdict", [b"solve", b"rules", b"deal"], 0, WON, None),
    ("a long line", [b"rules", b"hole"], 0, SPELLED, None),
    ("words that are no UTF-8", [b"solve", b"\xff", b"deal"], 1, b"", None),
    ("no words", [], 10, b"refused words no-command\n", None),
    ("no rules file", [b"rules", b"nowhere"], 11, b"failed rules\n", None),
    ("a rules file that is cut off", [b"rules", b"cut"], 12, b"refused rules not-json\n", None),
    ("a deal with no card", [b"solve", b"rules", b"empty"], 13, b"refused deal missing-card AC\n", None),
    ("a line that ends too soon", [b"replay", b"rules", b"deal", b"line"], 14, b"refused line ends-short\n", None),
    ("a full disk", [b"solve", b"rules", b"deal"], 15, None, None),
    ("no memory", [b"solve", b"freecell", b"--seed", b"1"], 16, b"", 20_000_000),
]


def limited(limit):
    """What the child does before it runs: it limits its address space."""
    return lambda: resource.setrlimit(resource.RLIMIT_AS, (limit, limit))


def run(program, folder, words, full, limit):
    """The status of one run, what it printed, and what it wrote to the standard error."""
    out = open("/dev/full", "wb") if full else subprocess.PIPE
    done = subprocess.run(
        [program.encode(), *words],
        cwd=folder,
        stdout=out,
        stderr=subprocess.PIPE,
        preexec_fn=limited(limit) if limit else None,
    )
    return done.returncode, done.stdout, done.stderr


def solves_by_seed(program, folder, nodes):
    """Whether seed 1 of FreeCell is undecided after exactly so many nodes, or won by a line that `replay` takes."""
    status, dealt, _ = run(program, folder, [b"deal", b"freecell", b"--seed", b"1"], False, None)
    if status != 0:
        return False
    words = [b"solve", b"freecell", b"--seed", b"1", b"--nodes", str(nodes).encode()]
    status, verdict, _ = run(program, folder, words, False, None)
    if status != 0:
        return False
    won = re.match(rb"winnable\nnodes ([0-9]+)\nnarrow 0\nmoves ([0-9]+)\n", verdict)
    if won is None:
        return verdict == b"undecided\nnodes %d\nnarrow 0\n" % nodes
    for name, content in [("dealt", dealt), ("won", verdict)]:
        with open(os.path.join(folder, name), "wb") as file:
            file.write(content)
    replayed = run(program, folder, [b"replay", b"freecell", b"dealt", b"won"], False, None)
    return int(won[1]) <= nodes and replayed == (0, b"wins\nmoves " + won[2] + b"\n", b"")


def main():
    program = os.path.join(TOP, "crates", "patience", "out", "patience")
    if len(sys.argv) > 1:
        program = os.path.abspath(sys.argv[1])
    failed = 0
    with tempfile.TemporaryDirectory() as folder:
        for name, content in FILES.items():
            with open(os.path.join(folder, name), "wb") as file:
                file.write(content)
        for name, words, status, printed, limit in ROWS:
            wanted = (status, printed, USAGE if status == 10 else b"")
            got = run(program, folder, words, printed is None, limit)
            if got != wanted:
                failed += 1
                print(f"{name}: wanted {wanted}, got {got}")
        for nodes in NODES:
            if not solves_by_seed(program, folder, nodes):
                failed += 1
                print(f"seed 1 of FreeCell with {nodes} nodes: no verdict in the stated form, or a win that is none")
    print(f"{len(ROWS) + len(NODES) - failed} passed, {failed} failed")
    sys.exit(1 if failed else 0)


if __name__ == "__main__":
    main()
