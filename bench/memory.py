#!/usr/bin/env python3
"""Refuses each allocation of a call in turn, and looks at how the call ends.

    bench/memory.py PROGRAM

PROGRAM is the built program. For each of ten calls, on small boards, the allocations are counted, and the
call is made again once for each of them, with that one refused (by a library that is preloaded; it needs a
C compiler, `cc`). Each of these must end with status 6 and a first part of the bytes that the whole call
writes, or as the whole call ends.
"""
import os
import subprocess
import sys
import tempfile

REFUSER = r"""
#define _GNU_SOURCE
#include <dlfcn.h>
#include <stdio.h>
#include <stdlib.h>

static long count;

static int is_refused(void) {
    const char *at = getenv("REFUSE");
    return ++count == (at ? atol(at) : 0);
}

void *malloc(size_t size) {
    static void *(*real)(size_t);
    if (!real) real = dlsym(RTLD_NEXT, "malloc");
    return is_refused() ? NULL : real(size);
}

void *realloc(void *old, size_t size) {
    static void *(*real)(void *, size_t);
    if (!real) real = dlsym(RTLD_NEXT, "realloc");
    return is_refused() ? NULL : real(old, size);
}

__attribute__((destructor)) static void tell(void) {
    const char *name = getenv("COUNT");
    FILE *file = name ? fopen(name, "w") : NULL;
    if (!file) return;
    fprintf(file, "%ld\n", count);
    fclose(file);
}
"""

BOARD = """board 1 two 40 20
layer top
class sig
rule top sig 1 2
block top 18 0 22 5
net a sig
net b sig
pin a 5 8 5 8 top top
pin a 30 8 30 8 top top
pin b 5 12 5 12 top top
pin b 30 12 30 12 top top
end
"""
COMMANDS = "route a\nroute b\nrip a\nstrips top sig\nall\nshow b\nrules\n"

CALLS = [
    ("run", "text"),
    ("run --quiet", "text"),
    ("upgrade", "text"),
    ("through a b", "text"),
    ("auto 3", "text"),
    ("check", "replies"),
    ("trace", "replies"),
    ("fill a top 0 0 40 20", "replies"),
    ("gerber top", "replies"),
    ("demo 3", "nothing"),
]


def call(program, words, given, **more):
    ran = subprocess.run([program, *words.split()], input=given, capture_output=True, env={**os.environ, **more})
    return ran.returncode, ran.stdout


def main():
    program = os.path.abspath(sys.argv[1])
    text = (BOARD + COMMANDS).encode()
    inputs = {"text": text, "nothing": b"", "replies": text + b"replies\n" + call(program, "run", text)[1]}
    faults = 0
    with tempfile.TemporaryDirectory() as room:
        source, library, count = f"{room}/refuser.c", f"{room}/refuser.so", f"{room}/count"
        with open(source, "w") as out:
            out.write(REFUSER)
        subprocess.run(["cc", "-shared", "-fPIC", "-o", library, source, "-ldl"], check=True)
        for words, name in CALLS:
            given = inputs[name]
            whole = call(program, words, given)
            call(program, words, given, LD_PRELOAD=library, COUNT=count)
            with open(count) as told:
                allocations = int(told.read())
            refused = 0
            for number in range(1, allocations + 1):
                status, out = call(program, words, given, LD_PRELOAD=library, REFUSE=str(number))
                refused += status == 6
                if (status, out) != whole and not (status == 6 and whole[1].startswith(out)):
                    faults += 1
                    print(f"{words}: allocation {number}: status {status}")
            print(f"{words}: status {whole[0]}, {allocations} allocations, {refused} times status 6")
    return 1 if faults else 0


if __name__ == "__main__":
    sys.exit(main())
