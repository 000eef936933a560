/* Iltgovruz: types and runs of L2 formulas, for a host in C.

   A formula is a table of bytes: 16 for each node, four little-endian words kind, a, b, c; 1 to 512 nodes, node 0 is the root.

       kind             a, b, c
       0  unit          0, 0, 0
       1  boolean       0 false or 1 true, 0, 0
       2  integer       its pattern of 32 bits, two's complement, 0, 0
       3  operator      0 to 9 for + - * / mod < > <= >= =, 0, 0
       4  name          the name, 0, 0
       5  application   left, right, 0
       6  if            condition, then, else
       7  lambda        name, body, 0
       8  let           name, bound expression, body
       9  rec           name, body, 0

   Names are 0 to 65,535. A child is given by its node's number, which is greater than its parent's; every node but 0 is a child exactly
   once. A name is bound by the nearest enclosing lambda, let or rec of that name, a let's in its body only.

   Integers are -2147483648 to 2147483647. A result of + - * / outside that range ends the run with overflow, and so does the least
   integer / -1; a zero divisor of / or mod ends it with division by zero. Division cuts towards zero and mod has the sign of the
   dividend: / -7 2 is -3, mod -7 2 is -1. The least integer mod -1 is 0.

   Each lambda, let and rec name has one type in its scope: let is not polymorphic, so that let i = fun x -> x in if i true then i 1
   else 0 has no type.

   Each call answers one number: the code in its low 8 bits, the place or payload in its high 32, zero between. iltgovruz_code and
   iltgovruz_payload take it apart.

   What the host owes: each pointer with its length is memory that it may read, and write for `out`; `out` does not overlap the table;
   nothing else writes either during the call; and the thread has ILTGOVRUZ_STACK bytes of stack left. A pointer with length 0 is not
   followed. Nothing more: every table, length and fuel has an answer, and every call returns.

   The calls keep nothing from one to the next, allocate nothing, and may be made by several threads at once. */
#ifndef ILTGOVRUZ_H
#define ILTGOVRUZ_H

#include <stddef.h>
#include <stdint.h>

#ifdef __cplusplus
extern "C" {
#endif

/* More than any call uses as this toolchain compiles it, which no proof covers. Measured: iltgovruz_infer 78 KB for the deepest type that
   we know, of 171 nested fun x -> x (..); iltgovruz_run 44 KB. */
#define ILTGOVRUZ_STACK (128 * 1024)

/* Both calls: the table is refused. The first that applies, in this order. */
enum {
    ILTGOVRUZ_BAD_LENGTH = 1, /* no whole number of nodes, none, or more than 512; place 0 */
    ILTGOVRUZ_BAD_NODE = 2,   /* an unknown kind, or a field outside its rule; place: the smallest such node */
    ILTGOVRUZ_BAD_TREE = 3,   /* not a child exactly once; place: the smallest such node */
    ILTGOVRUZ_UNBOUND = 4     /* a name without a binder; place: the smallest such node */
};

/* iltgovruz_infer */
enum {
    ILTGOVRUZ_TYPED = 0,      /* the most general type is in `out`; place: the count of its words */
    ILTGOVRUZ_WORK_SHORT = 5, /* too little work space; never answered, since the entry has enough for 512 nodes */
    ILTGOVRUZ_NO_TYPE = 6,    /* no typing exists; place 0 */
    ILTGOVRUZ_OUT_SHORT = 7   /* the type has more words than `out`; place 0 */
};

/* iltgovruz_run */
enum {
    ILTGOVRUZ_INTEGER = 10,          /* payload: the integer's pattern of 32 bits, two's complement */
    ILTGOVRUZ_BOOLEAN = 11,          /* payload: 0 false, 1 true */
    ILTGOVRUZ_UNIT = 12,             /* payload 0, and so below where nothing else is said */
    ILTGOVRUZ_FUNCTION = 13,
    ILTGOVRUZ_DIVISION_BY_ZERO = 14,
    ILTGOVRUZ_OVERFLOW = 15,
    ILTGOVRUZ_STUCK = 16,            /* payload: the application or if node. The formula has no value: a host takes this as a
                                        refusal of it. No formula that iltgovruz_infer answers with 0 gets stuck */
    ILTGOVRUZ_NO_FUEL = 17,          /* as many steps as `fuel` were made */
    ILTGOVRUZ_NO_BINDINGS = 18,      /* 512 bindings have been made, and one more is needed */
    ILTGOVRUZ_NO_FRAMES = 19         /* 512 frames are in use, and one more is needed */
};

/* The most general type of a formula: codes 0 to 7.

   On code 0 the first 4 × place bytes of `out` are the type's little-endian words, in prefix order: 1 unit, 2 bool, 3 int, 4 arrow and
   then its two parts, 16 + k for variable k, numbered from 0 by first appearance. No later byte of `out` changes, and on any other
   code no byte. Only whole words of `out` count, the first 1,024 at most: more than 4,096 bytes are of no use. */
uint64_t iltgovruz_infer(const uint8_t *table, size_t table_length, uint8_t *out, size_t out_length);

/* The run of a formula, `fuel` steps at most, on 512 bindings and 512 frames: codes 1 to 4 and 10 to 19. */
uint64_t iltgovruz_run(const uint8_t *table, size_t table_length, uint32_t fuel);

static inline unsigned iltgovruz_code(uint64_t answer)
{
    return (unsigned)(answer & 255);
}

static inline uint32_t iltgovruz_payload(uint64_t answer)
{
    return (uint32_t)(answer >> 32);
}

#ifdef __cplusplus
}
#endif

#endif
