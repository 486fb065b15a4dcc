#!/usr/bin/env python3
"""Runs a built program `kleisli` with each of its allocations refused in turn, and tells each run that does not end as it should.

    tools/refuse_memory.py PROGRAM SHOWN.. [--from N] [--most M]

What is run are the words and files of the first case of crates/cases/data that says words and of which each SHOWN is what it shows
or begins it. It is run once as it is, and then with allocation N refused, from 1 on, until one is asked for that is not made.
Each run ends with 9, `out of memory` and a front of what the first run printed, or else just as the first run does. A run that gets
no memory before the call ends with 9 and prints nothing.

The allocations are those of the C library, which a library is put in front of that counts them: it is compiled by `cc`, and works on
a program that is linked with a shared C library and has no allocator of its own. One run is made at a time. With --most no more than M
runs are made for each case. The status is 0 where all ended as they should."""
import argparse, os, subprocess, sys, tempfile, time

sys.dont_write_bytecode = True
from fuzz import TOP, Values, bytes_at, text_of

LIBRARY = r"""
#define _GNU_SOURCE
#include <dlfcn.h>
#include <errno.h>
#include <stdio.h>
#include <stdlib.h>
#include <unistd.h>

extern void *__libc_malloc(size_t), *__libc_calloc(size_t, size_t), *__libc_realloc(void *, size_t), *__libc_memalign(size_t, size_t);
static unsigned long made, refused;
static const char *told;

__attribute__((constructor)) static void begin(void) {
    const char *at = getenv("REFUSED");
    told = getenv("TOLD");
    made = 0;
    refused = at ? strtoul(at, 0, 10) : 0;
}

__attribute__((destructor)) static void end(void) {
    FILE *file;
    refused = 0;
    if (told && (file = fopen(told, "w"))) { fprintf(file, "%lu\n", made); fclose(file); }
}

static int is_refused(void) { return told && ++made == refused; }

void *malloc(size_t size) { if (is_refused()) { errno = ENOMEM; return 0; } return __libc_malloc(size); }
void *calloc(size_t count, size_t size) { if (is_refused()) { errno = ENOMEM; return 0; } return __libc_calloc(count, size); }
void *realloc(void *at, size_t size) { if (is_refused()) { errno = ENOMEM; return 0; } return __libc_realloc(at, size); }
void *memalign(size_t to, size_t size) { if (is_refused()) { errno = ENOMEM; return 0; } return __libc_memalign(to, size); }
void *aligned_alloc(size_t to, size_t size) { return memalign(to, size); }
int posix_memalign(void **at, size_t to, size_t size) { void *made_at = memalign(to, size); if (!made_at) return ENOMEM; *at = made_at; return 0; }
"""


def cases_that_show(shown):
    """For each, the words and files of the first case that shows it."""
    folder = os.path.join(TOP, "crates", "cases", "data")
    found = {}
    for name in sorted(os.listdir(folder)):
        if name.endswith(".kx"):
            for case in Values(bytes_at(os.path.join(folder, name))).all():
                for text in shown:
                    if text not in found and "words" in case and case.get("shows", b"").decode().startswith(text):
                        found[text] = case
    missing = [text for text in shown if text not in found]
    if missing:
        sys.exit(f"no case shows {missing[0]!r}")
    return [found[text] for text in shown]


def ran(program, words, folder, library, refused):
    """How a run ended, what it wrote, and how many allocations it asked for, where it came to its end."""
    told = os.path.join(folder, "told")
    if os.path.exists(told):
        os.remove(told)
    names = {"LD_PRELOAD": library, "REFUSED": str(refused), "TOLD": told}
    done = subprocess.run(
        [program, *words], cwd=folder, stdin=subprocess.DEVNULL, capture_output=True, env={**os.environ, **names}, check=False
    )
    count = int(bytes_at(told)) if os.path.exists(told) else None
    return (done.returncode, done.stdout, done.stderr), count


def is_fine(ended, first):
    status, out, err = ended
    if ended == first:
        return True
    return status == 9 and first[1].startswith(out) and (err == b"out of memory\n" or (not err and not out))


def tried(program, case, library, begin, most):
    words = [word.decode() for word in case["words"]]
    wrong = 0
    with tempfile.TemporaryDirectory(prefix="refused-") as folder:
        for file in case.get("files", []):
            path = os.path.join(folder, file["path"].decode())
            os.makedirs(os.path.dirname(path), exist_ok=True)
            with open(path, "wb") as it:
                it.write(text_of(file.get("text", b"")))
        first, count = ran(program, words, folder, library, 0)
        if not count:
            sys.exit("no allocation of the program was counted")
        end, refused, begun = min(count + 1, begin + most), 0, time.monotonic()
        for number in range(begin, end):
            ended, _ = ran(program, words, folder, library, number)
            refused += ended != first
            if not is_fine(ended, first):
                wrong += 1
                print(f"{' '.join(words)}: allocation {number} refused: status {ended[0]}, out {ended[1][-200:]!r}, err {ended[2][-200:]!r}")
    shows = case["shows"].decode()
    print(f"{shows}: {count} allocations, {end - begin} refused, {refused} of them ended the run, {wrong} otherwise than they should", end="")
    print(f"; {time.monotonic() - begun:.0f} s", flush=True)
    return wrong


def main():
    reader = argparse.ArgumentParser(description=__doc__, formatter_class=argparse.RawDescriptionHelpFormatter)
    reader.add_argument("program")
    reader.add_argument("shown", nargs="+")
    reader.add_argument("--from", dest="begin", type=int, default=1)
    reader.add_argument("--most", type=int, default=10**9)
    setting = reader.parse_args()
    with tempfile.TemporaryDirectory(prefix="refuse-") as folder:
        library = os.path.join(folder, "refuse.so")
        subprocess.run(["cc", "-O2", "-shared", "-fPIC", "-x", "c", "-", "-o", library], input=LIBRARY.encode(), check=True)
        program = os.path.abspath(setting.program)
        wrong = sum(tried(program, case, library, setting.begin, setting.most) for case in cases_that_show(setting.shown))
    return 1 if wrong else 0


if __name__ == "__main__":
    sys.exit(main())
