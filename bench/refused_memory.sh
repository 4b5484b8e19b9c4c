#!/usr/bin/env bash
# Refuses each allocation of a run in turn, once and then for good (by the C code below), in a session with good,
# hostile, refused and stale frames, readers and queries, and in `create`, `apply`, `checkpoint`, `raise`, `graph`,
# `audit`, `compile` (under profile 2 too) and `inspect`, each on a fresh copy of its store. Each run ends with status
# 10 or 3 and what was put until then, or as without a refusal; and the store then stands (refused_memory.py). Wants
# python3, gcc, and the program as `rt run` builds it. Its arguments are the first two of gen_town.py for the town of
# the session, 6 and 1 where left out.
set -eu
. "$(dirname "$0")/program.sh"
memory=$(mktemp -d -p /dev/shm)
trap 'rm -rf "$room" "$memory"' EXIT
gcc -O2 -Wall -Wextra -shared -fPIC -x c -o "$room/refuse_memory.so" - <<'C'
/* Refuses memory to the program into which it is preloaded (LD_PRELOAD): counts the calls of malloc, calloc, realloc,
   aligned_alloc and posix_memalign from the program's start on, and answers the one numbered REFUSE_AT that there is no
   memory; with REFUSE_ON all behind it too. Without REFUSE_AT none is refused. At the end it writes the number of calls
   to the file that REFUSE_COUNT names. */
#define _GNU_SOURCE
#include <errno.h>
#include <fcntl.h>
#include <stdio.h>
#include <stdlib.h>
#include <string.h>
#include <unistd.h>

/* the C library's own names of its calls */
void *__libc_malloc(size_t size);
void *__libc_calloc(size_t count, size_t size);
void *__libc_realloc(void *old, size_t size);
void *__libc_memalign(size_t alignment, size_t size);

static int started, from_then_on;
static unsigned long at, calls;

static int refused(void) {
    if (!started)
        return 0;
    calls++;
    return at && (calls == at || (from_then_on && calls > at));
}

__attribute__((constructor)) static void start(void) {
    const char *number = getenv("REFUSE_AT");
    at = number ? strtoul(number, NULL, 10) : 0;
    from_then_on = getenv("REFUSE_ON") != NULL;
    started = 1;
}

__attribute__((destructor)) static void end(void) {
    started = 0;
    const char *path = getenv("REFUSE_COUNT");
    int file = path ? open(path, O_WRONLY | O_CREAT | O_TRUNC, 0600) : -1;
    if (file < 0)
        return;
    char text[32];
    int length = snprintf(text, sizeof text, "%lu\n", calls);
    if (write(file, text, length) != length)
        _exit(125);
    close(file);
}

static void *none(void) {
    errno = ENOMEM;
    return NULL;
}

void *malloc(size_t size) { return refused() ? none() : __libc_malloc(size); }

void *calloc(size_t count, size_t size) { return refused() ? none() : __libc_calloc(count, size); }

void *realloc(void *old, size_t size) { return refused() ? none() : __libc_realloc(old, size); }

void *aligned_alloc(size_t alignment, size_t size) { return refused() ? none() : __libc_memalign(alignment, size); }

int posix_memalign(void **to, size_t alignment, size_t size) {
    void *found = refused() ? NULL : __libc_memalign(alignment, size);
    if (!found)
        return ENOMEM;
    *to = found;
    return 0;
}
C
python3 "$here/gen_town.py" "${1:-6}" "${2:-1}" "$room/town.opl" "$room/changes.opl" >/dev/null
time python3 "$here/refused_memory.py" "$program" "$room/refuse_memory.so" "$memory" "$room/town.opl" \
    "$here/../examples/village/extract.opl"
