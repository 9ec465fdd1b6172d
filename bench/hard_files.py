#!/usr/bin/env python3
"""Gives the program files and outputs that are no plain files, and compares the status and what was printed.

usage: bench/hard_files.py [PROGRAM]

PROGRAM is the built program, crates/patience/out/patience if left out. The files are a directory, a file that may not be
read (tried as the user `nobody` if the script runs as root), pipes, files without an end and one that fails as it is read;
the outputs are closed, cut off, full, or not to be written. Wants Linux. The last line is `N passed, M failed`.
"""
import os
import pwd
import resource
import shutil
import signal
import subprocess
import sys
import tempfile
import threading

TOP = os.path.dirname(os.path.dirname(os.path.abspath(__file__)))

RULES = b'{"max rank":2,"tableau":{"piles":2}}'
DEAL = b'{"tableau":[["AC","2C"]],"foundations":[0,2,2,2]}'
WON = b"winnable\nnodes 3\nnarrow 0\nmoves 3\nt0 t1 1\nt0 f0\nt1 f0\n"
SOLVE = ["solve", "rules", "deal"]

# What is shown, the words, the status and what is printed.
FILES = [
    ("two plain files", SOLVE, 0, WON),
    ("rules that are a directory", ["solve", "folder", "deal"], 11, b"failed rules\n"),
    ("a deal that is a directory", ["solve", "rules", "folder"], 11, b"failed deal\n"),
    ("a line that is a directory", ["replay", "rules", "deal", "folder"], 11, b"failed line\n"),
    ("rules that may not be read", ["solve", "locked", "deal"], 11, b"failed rules\n"),
    ("a deal that may not be read", ["solve", "rules", "locked"], 11, b"failed deal\n"),
    ("rules that fail as they are read", ["rules", "/proc/self/mem"], 11, b"failed rules\n"),
    ("rules without an end", ["rules", "/dev/zero"], 12, b"refused rules too-long\n"),
    ("rules from a full disk", ["rules", "/dev/full"], 12, b"refused rules too-long\n"),
    ("a deal from a full disk", ["solve", "rules", "/dev/full"], 13, b"refused deal too-long\n"),
    ("a line from a full disk", ["replay", "rules", "deal", "/dev/full"], 14, b"refused line too-long\n"),
    ("rules of no bytes", ["rules", "/dev/null"], 12, b"refused rules not-json\n"),
    ("a line of no bytes", ["replay", "rules", "deal", "/dev/null"], 14, b"refused line ends-short\n"),
    ("rules from a pipe", ["solve", "pipe", "deal"], 0, WON),
]


def as_nobody():
    """What the child does before it runs: it gives up the rights of root."""
    if os.getuid() == 0:
        os.setuid(pwd.getpwnam("nobody").pw_uid)


def few_bytes():
    """What the child does before it runs: it may write 12 bytes to a file."""
    signal.signal(signal.SIGXFSZ, signal.SIG_IGN)
    resource.setrlimit(resource.RLIMIT_FSIZE, (12, 12))


def of_files(program, folder, words):
    """The status of one run and what it printed."""
    if "pipe" in words:
        feeding = threading.Thread(target=lambda: open(os.path.join(folder, "pipe"), "wb").write(RULES), daemon=True)
        feeding.start()
    done = subprocess.run([program, *words], cwd=folder, capture_output=True, preexec_fn=as_nobody, timeout=60)
    return done.returncode, done.stdout


def of_outputs(program, folder):
    """For each output: what is shown, the status, and what the output holds if that can be told."""
    def status(**more):
        return subprocess.run([program, *SOLVE], cwd=folder, timeout=60, **more).returncode

    yield "a closed output", status(preexec_fn=lambda: os.close(1)), b""
    with open("/dev/full", "wb") as full:
        yield "a full disk", status(stdout=full), b""
    with open(os.path.join(folder, "rules"), "rb") as unwritable:
        yield "an output that is only read", status(stdout=unwritable), b""
    first, last = os.pipe()
    os.close(first)
    yield "a pipe that nobody reads", status(stdout=last, restore_signals=False), b""
    os.close(last)
    cut = os.path.join(folder, "cut")
    with open(cut, "wb") as file:
        number = status(stdout=file, preexec_fn=few_bytes)
    with open(cut, "rb") as file:
        yield "an output of 12 bytes", number, file.read()


def main():
    program = os.path.join(TOP, "crates", "patience", "out", "patience")
    if len(sys.argv) > 1:
        program = os.path.abspath(sys.argv[1])
    passed = failed = 0
    with tempfile.TemporaryDirectory() as folder:
        os.chmod(folder, 0o755)
        program = shutil.copy(program, folder)
        os.mkdir(os.path.join(folder, "folder"))
        os.mkfifo(os.path.join(folder, "pipe"))
        for name, content in [("rules", RULES), ("deal", DEAL), ("locked", RULES)]:
            with open(os.path.join(folder, name), "wb") as file:
                file.write(content)
        os.chmod(os.path.join(folder, "locked"), 0)
        os.chmod(os.path.join(folder, "pipe"), 0o644)
        rows = [(name, of_files(program, folder, words), (status, text)) for name, words, status, text in FILES]
        rows += [(name, (status, WON.startswith(text)), (15, True)) for name, status, text in of_outputs(program, folder)]
        for name, got, wanted in rows:
            passed, failed = (passed + 1, failed) if got == wanted else (passed, failed + 1)
            if got != wanted:
                print(f"{name}: wanted {wanted}, got {got}")
    print(f"{passed} passed, {failed} failed")
    sys.exit(1 if failed else 0)


if __name__ == "__main__":
    main()
