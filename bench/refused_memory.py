#!/usr/bin/env python3
"""Refuses one allocation of the program at a time, and looks at how each run ends.

usage: bench/refused_memory.py [PROGRAM]

PROGRAM is the built program, crates/patience/out/patience if left out. Each row below is run again and again: first its
first allocation is refused, then its second, and so on until a run ends before any was refused. Then the same with all
allocations refused from that number on. A run must end with status 16 and print nothing, or end as it does without a
refusal. Allocations are counted from the call of `main` on, by a C library of a few lines, which is compiled here and laid
before the program's own, so the script wants Linux, a C compiler and a program that is linked to the C library as it runs.
"""
import os
import subprocess
import sys
import tempfile

TOP = os.path.dirname(os.path.dirname(os.path.abspath(__file__)))

REFUSING = r"""
#define _GNU_SOURCE
#include <dlfcn.h>
#include <errno.h>
#include <stdlib.h>
#include <unistd.h>

static long left;          /* how many allocations are granted still */
static int all, counting;  /* whether all later ones are refused too; whether main was called */
static int (*program_main)(int, char **, char **);

extern void *__libc_malloc(size_t), *__libc_calloc(size_t, size_t), *__libc_realloc(void *, size_t);
extern void *__libc_memalign(size_t, size_t);

static int refused(void) {
    if (!counting) return 0;
    left -= 1;
    if (left >= 0 || (left < -1 && !all)) return 0;
    if (left == -1 && write(2, "refused\n", 8) != 8) _exit(99);
    errno = ENOMEM;
    return 1;
}

void *malloc(size_t size) { return refused() ? NULL : __libc_malloc(size); }
void *calloc(size_t count, size_t size) { return refused() ? NULL : __libc_calloc(count, size); }
void *realloc(void *old, size_t size) { return refused() ? NULL : __libc_realloc(old, size); }
void *aligned_alloc(size_t align, size_t size) { return refused() ? NULL : __libc_memalign(align, size); }
void *memalign(size_t align, size_t size) { return refused() ? NULL : __libc_memalign(align, size); }
int posix_memalign(void **out, size_t align, size_t size) {
    if (refused()) return ENOMEM;
    *out = __libc_memalign(align, size);
    return *out ? 0 : ENOMEM;
}

static int counted_main(int count, char **words, char **environment) {
    left = atol(getenv("GRANTED"));
    all = getenv("ALL_LATER") != NULL;
    counting = 1;
    return program_main(count, words, environment);
}

int __libc_start_main(int (*entry)(int, char **, char **), int count, char **words, void (*init)(void),
                      void (*fini)(void), void (*linker)(void), void *stack) {
    int (*start)(int (*)(int, char **, char **), int, char **, void (*)(void), void (*)(void), void (*)(void), void *);
    *(void **)&start = dlsym(RTLD_NEXT, "__libc_start_main");
    program_main = entry;
    return start(counted_main, count, words, init, fini, linker, stack);
}
"""

# Thirteen clubs in the stock, the king at its bottom: all boards of the line are remembered beside one other.
CLUBS = b'{"stock":{"size":13}}'
CLUBS_DEAL = b'{"foundations":[0,13,13,13],"stock":["KC","QC","JC","TC","9C","8C","7C","6C","5C","4C","3C","2C","AC"]}'

# What is run: the words, in which games/ and deals/ stand for those folders.
ROWS = [
    "solve clubs clubs-deal --cache 1",
    "solve games/freecell.json deals/freecell-27675.json --cache 1",
    # The restricted search wins here, and gives up in the row below.
    "solve clubs clubs-deal --cache 1 --narrow 30",
    "solve games/freecell.json deals/freecell-27675.json --cache 1 --narrow 30",
    "solve games/klondike.json --seed 5 --cache 20 --nodes 300",
    "solve games/gaps.json --seed 1 --cache 3 --nodes 200",
    "solve games/spider.json --seed 3 --cache 5 --nodes 60",
    "solve games/little-cell.json deals/little-cell-lost.json --cache 30 --nodes 300",
    "deal games/klondike.json --seed 7",
    "deal games/gaps.json --seed 7",
    "rules games/spider.json",
    "replay games/freecell.json deals/freecell-27675.json line",
]


def memos(program, folder):
    """The options that name a memo, with none for a program that knows no such option."""
    done = subprocess.run([program, *"solve clubs clubs-deal --memo lru".split()], cwd=folder, capture_output=True)
    return [" --memo linked", " --memo lru"] if done.returncode == 0 else [""]


def run(program, folder, words, library=None, granted=0, all_later=False):
    """The status of a run, what it printed, and whether an allocation was refused."""
    environment = dict(os.environ)
    if library:
        environment.update({"LD_PRELOAD": library, "GRANTED": str(granted)})
        if all_later:
            environment["ALL_LATER"] = "1"
    done = subprocess.run([program, *words.split()], cwd=folder, env=environment, capture_output=True)
    return done.returncode, done.stdout, b"refused\n" in done.stderr


def refuse_each(program, folder, library, words, all_later):
    """How many runs ended for want of memory and how many as without a refusal, and what is wrong."""
    status, printed, _ = run(program, folder, words)
    counts, granted, wrong = [0, 0], 0, []
    while True:
        got = run(program, folder, words, library, granted, all_later)
        if got == (16, b"", True):
            counts[0] += 1
        elif got[:2] == (status, printed):
            if not got[2]:
                return counts, wrong
            counts[1] += 1
        else:
            wrong.append(f"{words}: allocation {granted} refused: status {got[0]}, {len(got[1])} bytes printed")
        if not got[2]:
            return counts, wrong
        granted += 1


def main():
    program = os.path.join(TOP, "crates", "patience", "out", "patience")
    if len(sys.argv) > 1:
        program = os.path.abspath(sys.argv[1])
    failed = 0
    with tempfile.TemporaryDirectory() as folder:
        os.symlink(os.path.join(TOP, "games"), os.path.join(folder, "games"))
        os.symlink(os.path.join(TOP, "games", "deals"), os.path.join(folder, "deals"))
        library = os.path.join(folder, "refusing.so")
        for name, content in [("clubs", CLUBS), ("clubs-deal", CLUBS_DEAL), ("refusing.c", REFUSING.encode())]:
            with open(os.path.join(folder, name), "wb") as file:
                file.write(content)
        subprocess.run(["cc", "-O1", "-shared", "-fPIC", "-o", library, "refusing.c", "-ldl"], cwd=folder, check=True)
        words = "solve games/freecell.json deals/freecell-27675.json"
        with open(os.path.join(folder, "line"), "wb") as file:
            file.write(run(program, folder, words)[1])
        kinds = memos(program, folder)
        for row in ROWS:
            for memo in kinds if row.startswith("solve") else [""]:
                for all_later in [False, True]:
                    counts, wrong = refuse_each(program, folder, library, row + memo, all_later)
                    failed += len(wrong)
                    later = ", and all later ones" if all_later else ""
                    print(f"{row}{memo}{later}: {sum(counts)} refused, {counts[0]} with status 16, {counts[1]} as ever")
                    for text in wrong:
                        print(text)
    print(f"{failed} failed")
    sys.exit(1 if failed else 0)


if __name__ == "__main__":
    main()
