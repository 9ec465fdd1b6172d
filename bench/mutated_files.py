#!/usr/bin/env python3
"""Gives the program files that were changed at random, and looks at each status and each text.

usage: bench/mutated_files.py [PROGRAM [COUNT]]

PROGRAM is the built program, crates/patience/out/patience if left out, and COUNT how many files are made, 20,000 if left
out. They are rules files, deal files and line files in turn, made from those in games/ by a generator of random numbers
that begins at the same place each time. Each run has ten seconds. Its status must be one of those in docs/FORMATS.md, and
its text one of those that the status comes with; a winnable verdict must be a line file that wins.
"""
import collections
import glob
import os
import random
import re
import subprocess
import sys
import tempfile

TOP = os.path.dirname(os.path.dirname(os.path.abspath(__file__)))

NUMBER = r"(0|[1-9][0-9]*)"
PLACE = rf"([tcrfs]{NUMBER}|[wh])"
MOVE = rf"({PLACE} {PLACE}( {NUMBER})?|deal|redeal)\n"
CARD = "[A2-9TJQK][CDHS]"
VERDICT = (
    rf"winnable\nnodes {NUMBER}\nnarrow {NUMBER}\nmoves {NUMBER}\n({MOVE})*"
    rf"|(unwinnable|undecided)\nnodes {NUMBER}\nnarrow {NUMBER}\n"
)
RULE_PART = "(top|tableau|foundations|hole|sequences|cells|reserve|stock)"
DEAL_PART = "(tableau|face-down|cells|reserve|stock|waste|redeals-left|foundations|hole|rows)"
FILE_FAULT = "too-long|not-json|not-object"

# The texts that each status comes with.
TEXTS = {
    11: r"failed (rules|deal|line)\n",
    12: rf"refused rules ({FILE_FAULT}|(unknown-key|wrong-type|bad-value) {RULE_PART}|conflict [1-9])\n",
    13: rf"refused deal ({FILE_FAULT}|unknown-key|(wrong-type|place-full) {DEAL_PART}|not-a-card {DEAL_PART} {NUMBER}"
    rf"|(missing|extra)-card {CARD}|too-few-cards|too-many-cards)\n",
    14: rf"refused line (too-long|bad-move {NUMBER}|illegal {NUMBER}|ends-short)\n",
}

# The texts of each command that was done.
DONE = {
    "solve": VERDICT,
    "rules": r"\{.*\}\n",
    "deal": r"\{.*\}\n",
    "replay": rf"wins\nmoves {NUMBER}\n",
}

LIMITS = ["--nodes", "60", "--cache", "20"]

PIECES = [b'"', b"{", b"}", b"[", b"]", b",", b":", b"null", b"0", b"-1", b"1e3", b"256", b"18446744073709551616", b'"AC"',
          b'"KH"', b"true", b"\xff", b"\\u0041", b" ", b"\n", b"t0", b"f0", b"deal\n", b"winnable\n"]


def mutated(chance, content):
    """The bytes after one to four changes."""
    content = bytearray(content)
    for _ in range(chance.randint(1, 4)):
        at, kind = chance.randrange(len(content) + 1), chance.randrange(7)
        end = min(len(content), at + chance.randint(1, 12))
        if kind == 0:
            content[at:end] = b""
        elif kind == 1:
            content[at:at] = chance.choice(PIECES)
        elif kind == 2:
            content[at:end] = chance.choice(PIECES)
        elif kind == 3:
            content[at:at] = content[at:end]
        elif kind == 4 and at < len(content):
            content[at] ^= 1 << chance.randrange(8)
        elif kind == 5:
            numbers = [found.span() for found in re.finditer(rb"[0-9]+", bytes(content))]
            if numbers:
                first, last = chance.choice(numbers)
                content[first:last] = str(chance.randint(0, 30)).encode()
        elif kind == 6 and chance.randrange(8) == 0:
            del content[at:]
    return bytes(content)


def run(program, folder, words):
    """The status of a run and its text; no status if it did not end."""
    try:
        done = subprocess.run([program, *words], cwd=folder, capture_output=True, timeout=10)
    except subprocess.TimeoutExpired:
        return None, ""
    return done.returncode, done.stdout.decode("latin-1")


def right(program, folder, words, status, text):
    """Whether the text is one that the status comes with, and a winnable verdict wins."""
    if status != 0:
        return status in TEXTS and re.fullmatch(TEXTS[status], text) is not None
    if re.fullmatch(DONE[words[0]], text) is None:
        return False
    if not text.startswith("winnable\n"):
        return True
    with open(os.path.join(folder, "printed"), "w", encoding="latin-1") as file:
        file.write(text)
    moves = text.split("\n")[3]
    return run(program, folder, ["replay", words[1], words[2], "printed"]) == (0, f"wins\n{moves}\n")


def main():
    program = os.path.join(TOP, "crates", "patience", "out", "patience")
    if len(sys.argv) > 1:
        program = os.path.abspath(sys.argv[1])
    count = int(sys.argv[2]) if len(sys.argv) > 2 else 20_000
    chance = random.Random(1)
    games = {os.path.basename(path)[:-5]: path for path in sorted(glob.glob(os.path.join(TOP, "games", "*.json")))}
    pairs = []
    for deal in sorted(glob.glob(os.path.join(TOP, "games", "deals", "*.json"))):
        name = max((g for g in games if os.path.basename(deal).startswith(g)), key=len)
        pairs.append((games[name], deal))
    seen, failed = collections.Counter(), 0
    with tempfile.TemporaryDirectory() as folder:
        lines = []
        for rules, deal in pairs:
            status, text = run(program, folder, ["solve", rules, deal, "--nodes", "2000"])
            if status == 0 and text.startswith("winnable\n"):
                lines.append((rules, deal, text.encode()))
        for number in range(count):
            kind, path = number % 3, os.path.join(folder, "mutated")
            if kind == 0:
                rules, deal = chance.choice(pairs)
                source = open(rules, "rb").read()
                words = chance.choice([["rules", path], ["deal", path, "--seed", "1"], ["solve", path, deal, *LIMITS]])
            elif kind == 1:
                rules, deal = chance.choice(pairs)
                source = open(deal, "rb").read()
                words = ["solve", rules, path, *LIMITS]
            else:
                rules, deal, source = chance.choice(lines)
                words = ["replay", rules, deal, path]
            with open(path, "wb") as file:
                file.write(mutated(chance, source))
            status, text = run(program, folder, words)
            seen[words[0], status] += 1
            if not right(program, folder, words, status, text):
                failed += 1
                print(f"file {number}, {words[0]}: status {status}, {text[:80]!r}")
    for (command, status), number in sorted(seen.items(), key=str):
        print(f"{command}: status {status} {number} times")
    print(f"{count} files, {failed} failed")
    sys.exit(1 if failed else 0)


if __name__ == "__main__":
    main()
