/* Infers and runs three formulas: one that has a type, one that has none, and one whose table is refused. In the repository:

       tools/build host && gcc -O2 examples/host.c target/staticlib/libhost.a -o host && ./host

   and where the machine is no x86-64, x86_64-linux-gnu-gcc -O2 -static for gcc -O2, and qemu-x86_64 ./host for ./host. */
#include <inttypes.h>
#include <stdio.h>

#include "../include/iltgovruz.h"

enum { MOST_WORDS = 2048 };

/* (fun x -> + x 1) 5 */
static const uint32_t applied[] = {5, 1, 7, 0, 7, 0, 2, 0, 5, 3, 6, 0, 5, 4, 5, 0, 3, 0, 0, 0, 4, 0, 0, 0, 2, 1, 0, 0, 2, 5, 0, 0};
/* fun x -> x x */
static const uint32_t self_applied[] = {7, 0, 1, 0, 5, 2, 3, 0, 4, 0, 0, 0, 4, 0, 0, 0};
/* a name without a binder */
static const uint32_t unbound[] = {4, 0, 0, 0};

static size_t put_words(const uint32_t *words, size_t count, uint8_t *bytes)
{
    for (size_t i = 0; i < 4 * count; i++)
        bytes[i] = (uint8_t)(words[i / 4] >> 8 * (i % 4));
    return 4 * count;
}

static uint32_t get_word(const uint8_t *bytes, size_t i)
{
    return bytes[4 * i] | (uint32_t)bytes[4 * i + 1] << 8 | (uint32_t)bytes[4 * i + 2] << 16 | (uint32_t)bytes[4 * i + 3] << 24;
}

static void show(const char *formula, const uint32_t *words, size_t count)
{
    uint8_t table[4 * MOST_WORDS], out[256];
    size_t length = put_words(words, count, table);

    uint64_t type = iltgovruz_infer(table, length, out, sizeof out);
    printf("%s: type %u %" PRIu32, formula, iltgovruz_code(type), iltgovruz_payload(type));
    if (iltgovruz_code(type) == ILTGOVRUZ_TYPED)
        for (size_t i = 0; i < iltgovruz_payload(type); i++)
            printf(" %" PRIu32, get_word(out, i));

    uint64_t run = iltgovruz_run(table, length, 100000);
    if (iltgovruz_code(run) == ILTGOVRUZ_INTEGER)
        printf(", run 10 %" PRId32 "\n", (int32_t)iltgovruz_payload(run));
    else
        printf(", run %u %" PRIu32 "\n", iltgovruz_code(run), iltgovruz_payload(run));
}

int main(void)
{
    show("(fun x -> + x 1) 5", applied, sizeof applied / sizeof *applied);
    show("fun x -> x x", self_applied, sizeof self_applied / sizeof *self_applied);
    show("x", unbound, sizeof unbound / sizeof *unbound);
    return 0;
}
