/* usage: calls CALL SIDE COUNT FILE ROOM FUEL: makes COUNT calls of CALL (check, infer, run) by SIDE (rattle, c) on the table of decimal
   words in FILE, with an out slice of ROOM words, or with FUEL and two stores of ROOM cells. Instructions of one call less those of none
   are the cost of the call. Where SIDE is `both`, makes a call of each, prints the answer, and fails where an answer or a lent word
   differs. */
#include <inttypes.h>
#include <stdio.h>
#include <stdlib.h>
#include <string.h>
#include "calls.h"

enum { WORDS = 2048, WORK = 24 * 512 + 16, OUT = 4096, STORE = 8 * 4096 };
static uint32_t words[WORDS + 1], fuel;
static size_t length, room;

/* One side's calls, and what is lent to them. */
struct side {
    check_call *check;
    infer_call *infer;
    run_call *run;
    struct lent { uint32_t work[WORK], out[OUT], bindings[STORE], frames[STORE], counts[2]; } lent;
};
static struct side rattle = {.check = rattle_check, .infer = rattle_infer, .run = rattle_run};
static struct side c = {.check = c_check, .infer = c_infer, .run = c_run};

static uint64_t call(char what, struct side *s) {
    struct lent *l = &s->lent;
    switch (what) {
    case 'c': return s->check(words, length);
    case 'i': return s->infer(words, length, l->work, WORK, l->out, room);
    default: return s->run(words, length, fuel, l->bindings, 8 * room, l->frames, 8 * room, l->counts, 2);
    }
}

int main(int argc, char **argv) {
    if (argc != 7) return 2;
    char what = argv[1][0];
    FILE *file = fopen(argv[4], "r");
    room = strtoul(argv[5], NULL, 10);
    fuel = (uint32_t)strtoul(argv[6], NULL, 10);
    if (file == NULL || room > OUT) return 2;
    while (length <= WORDS && fscanf(file, "%" SCNu32, &words[length]) == 1) length++;
    memset(&rattle.lent, 255, sizeof rattle.lent);
    memset(&c.lent, 255, sizeof c.lent);
    if (strcmp(argv[2], "both") == 0) {
        uint64_t answer = call(what, &rattle), other = call(what, &c);
        const uint32_t *counts = rattle.lent.counts;
        printf("%" PRIu32 " %" PRIu64 " %" PRIu32 " %" PRIu32 "\n", (uint32_t)answer, answer >> 32, counts[0], counts[1]);
        return answer != other || memcmp(&rattle.lent, &c.lent, sizeof c.lent) != 0;
    }
    struct side *side = strcmp(argv[2], "rattle") == 0 ? &rattle : &c;
    for (long count = strtol(argv[3], NULL, 10); count > 0; count--) call(what, side);
    return 0;
}
