/* A host in C that notices one stray read or write. The table lies in memory that the entries can read only, `out` in memory of its own,
   and a page that nothing may touch is before and behind each. Every case is called twice: with both slices at the start of their
   pages, and with both at the end. The calls are made on a thread with the stack that the header asks for, and OWN_STACK
   bytes for the host itself.

   Standard input: for each case the numbers table length, out length, fuel and a number for the bytes that the pages of `out` hold before,
   little-endian, then the table's bytes. A line for each case, with four numbers for the first calls and four for the last: those of
   iltgovruz_infer and iltgovruz_run, and the sums of the table and of all bytes between the guards of `out` afterwards.

   It knows nothing of what is right. A stray access ends it by a signal. */
#define _GNU_SOURCE
#include <inttypes.h>
#include <pthread.h>
#include <stdio.h>
#include <stdlib.h>
#include <string.h>
#include <sys/mman.h>
#include <unistd.h>

#include "../include/iltgovruz.h"

enum { ROOM = 4 * 4096, GUARD = 4096, SEEDS = 4096, OWN_STACK = 16 * 1024 };

/* What the pages of `out` hold before a call: ROOM bytes from one of so many places on. */
static uint8_t noise[ROOM + SEEDS];

/* ROOM bytes between two guards: as the host writes them, and as the entries see them. */
struct pages {
    uint8_t *host, *entry;
};

static void fail(const char *what)
{
    perror(what);
    exit(2);
}

static uint8_t *mapped(int file, int access)
{
    uint8_t *all = mmap(NULL, ROOM + 2 * GUARD, PROT_NONE, MAP_PRIVATE | MAP_ANONYMOUS, -1, 0);
    if (all == MAP_FAILED || mmap(all + GUARD, ROOM, access, MAP_SHARED | MAP_FIXED, file, 0) == MAP_FAILED)
        fail("mmap");
    return all + GUARD;
}

static struct pages new_pages(int access)
{
    int file = memfd_create("pages", 0);
    if (file < 0 || ftruncate(file, ROOM) != 0)
        fail("memfd_create");
    struct pages pages = {mapped(file, PROT_READ | PROT_WRITE), mapped(file, access)};
    return pages;
}

/* The sum Adler-32, as zlib has it. */
static uint32_t sum(const uint8_t *bytes, size_t count)
{
    uint64_t low = 1, high = 0;
    for (size_t i = 0; i < count; i++) {
        low += bytes[i];
        high += low;
    }
    return (uint32_t)(high % 65521 << 16 | low % 65521);
}

/* Both calls with the slices at these places of their pages, and their four numbers. */
static void enter_at(struct pages tables, struct pages outs, size_t table, size_t out, const uint32_t head[4], const uint8_t *bytes)
{
    memcpy(tables.host + table, bytes, head[0]);
    memcpy(outs.host, noise + head[3] % SEEDS, ROOM);
    uint64_t infer = iltgovruz_infer(tables.entry + table, head[0], outs.entry + out, head[1]);
    uint64_t run = iltgovruz_run(tables.entry + table, head[0], head[2]);
    printf("%" PRIu64 " %" PRIu64 " %" PRIu32 " %" PRIu32, infer, run, sum(tables.host + table, head[0]), sum(outs.host, ROOM));
}

static int one_case(struct pages tables, struct pages outs)
{
    uint32_t head[4];
    static uint8_t table[ROOM];
    if (fread(head, sizeof head, 1, stdin) != 1 || head[0] > ROOM || head[1] > ROOM || fread(table, 1, head[0], stdin) != head[0])
        return 0;
    enter_at(tables, outs, 0, 0, head, table);
    putchar(' ');
    enter_at(tables, outs, ROOM - head[0], ROOM - head[1], head, table);
    putchar('\n');
    return 1;
}

static void *all_cases(void *unused)
{
    for (size_t i = 0; i < sizeof noise; i++)
        noise[i] = (uint8_t)(i * 2654435761u >> 24);
    struct pages tables = new_pages(PROT_READ), outs = new_pages(PROT_READ | PROT_WRITE);
    while (one_case(tables, outs))
        ;
    return unused;
}

int main(void)
{
    pthread_attr_t attributes;
    pthread_t thread;
    if (iltgovruz_code(iltgovruz_infer(NULL, 0, NULL, 0)) != ILTGOVRUZ_BAD_LENGTH ||
        iltgovruz_code(iltgovruz_run(NULL, 0, 0)) != ILTGOVRUZ_BAD_LENGTH)
        return 1;
    if (pthread_attr_init(&attributes) != 0 || pthread_attr_setstacksize(&attributes, ILTGOVRUZ_STACK + OWN_STACK) != 0 ||
        pthread_create(&thread, &attributes, all_cases, NULL) != 0 || pthread_join(thread, NULL) != 0)
        fail("thread");
    return 0;
}
