#define _DEFAULT_SOURCE
#include "lent.h"

#include <setjmp.h>
#include <signal.h>
#include <stdint.h>
#include <stdio.h>
#include <stdlib.h>
#include <string.h>
#include <sys/mman.h>
#include <unistd.h>

/* How many loans there are at a time, and how large one is at most. */
enum { LOANS = 8, MOST = 1 << 20 };

static enum place place;
static void *loans[LOANS];
static unsigned count;

/* MOST bytes each, between two pages that nobody may touch. */
static uint8_t *regions[LOANS];

static void fail(const char *what)
{
    printf("lent memory: %s\n", what);
    exit(1);
}

static uint8_t *new_region(void)
{
    size_t page = (size_t)sysconf(_SC_PAGESIZE);
    uint8_t *all = mmap(NULL, MOST + 2 * page, PROT_NONE, MAP_PRIVATE | MAP_ANONYMOUS, -1, 0);
    if (all == MAP_FAILED || mprotect(all + page, MOST, PROT_READ | PROT_WRITE) != 0)
        fail("no pages");
    return all + page;
}

static uint8_t *in_region(size_t size)
{
    if (regions[count] == NULL)
        regions[count] = new_region();
    return place == BEFORE_PAGE ? regions[count] + MOST - size : regions[count];
}

void lend_at(enum place where)
{
    place = where;
}

void *lend(size_t size)
{
    if (count == LOANS || size > MOST)
        fail("too much lent");
    void *loan = place == ON_HEAP ? malloc(size) : in_region(size);
    if (loan == NULL)
        fail("no heap");
    memset(loan, LENT, size);
    return loans[count++] = loan;
}

void *lend_copy(const void *from, size_t size)
{
    return from == NULL ? NULL : memcpy(lend(size), from, size);
}

void take_back(void)
{
    while (count > 0) {
        count--;
        if (place == ON_HEAP)
            free(loans[count]);
    }
}

static sigjmp_buf stopped;

static void stop(int number)
{
    (void)number;
    siglongjmp(stopped, 1);
}

static int read_stops(const volatile uint8_t *at)
{
    if (sigsetjmp(stopped, 1) != 0)
        return 1;
    (void)*at;
    return 0;
}

int pages_stop_reads(void)
{
    struct sigaction ours = {.sa_handler = stop}, before;
    sigaction(SIGSEGV, &ours, &before);
    lend_at(BEFORE_PAGE);
    const uint8_t *low = lend(3);
    int all = read_stops(low + 3) && !read_stops(low + 2);
    take_back();
    lend_at(AFTER_PAGE);
    const uint8_t *high = lend(3);
    all = all && read_stops(high - 1) && !read_stops(high);
    take_back();
    sigaction(SIGSEGV, &before, NULL);
    return all;
}
