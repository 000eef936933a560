/* The calls that are counted, in Rattle (entries.rattle) and in C (infer.c, machine.c). Each answers its code in the low 32 bits, and its
   place, payload or count above. */
#include <stddef.h>
#include <stdint.h>

struct node { uint32_t kind, a, b, c; };

typedef uint64_t check_call(const uint32_t *words, size_t length);
check_call rattle_check, c_check;

typedef uint64_t infer_call(const uint32_t *words, size_t length, uint32_t *work, size_t work_length, uint32_t *out, size_t out_length);
infer_call rattle_infer, c_infer;

/* Steps and bindings go to the two words of `counts`. */
typedef uint64_t run_call(const uint32_t *words, size_t length, uint32_t fuel, uint32_t *bindings, size_t bindings_length,
                          uint32_t *frames, size_t frames_length, uint32_t *counts, size_t counts_length);
run_call rattle_run, c_run;
