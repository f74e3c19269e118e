/* What the test programs share: they count checks that hold, and those that don't, which are named; and memory with a guard. */
#ifndef EXPECT_H
#define EXPECT_H

#include <stdio.h>

static unsigned passed, failed;

static void expect(const char *name, int holds)
{
    if (holds) {
        passed++;
    } else {
        failed++;
        printf("%s: failed\n", name);
    }
}

#ifdef _DEFAULT_SOURCE /* for MAP_ANONYMOUS: a program that wants memory() defines it before it includes anything */
#include <stdint.h>
#include <stdlib.h>
#include <sys/mman.h>
#include <unistd.h>

/*
 * Memory of just this size, all zero, and never given back. The page behind it cannot be touched, so whatever reads or writes past
 * its end is stopped. A sanitizer would not see it: the archive is built without.
 */
static inline void *memory(size_t size)
{
    size_t page = (size_t)sysconf(_SC_PAGESIZE), room = (size + page - 1) / page * page;
    uint8_t *start = mmap(NULL, room + page, PROT_READ | PROT_WRITE, MAP_PRIVATE | MAP_ANONYMOUS, -1, 0);

    if (start == MAP_FAILED || mprotect(start + room, page, PROT_NONE) != 0)
        abort();
    return start + room - size;
}
#endif

#endif
