/* The runner for hosts in C: crates/c_host, a static library. docs/EMBEDDING.md says how to build and link it. */
#ifndef TOSSPEAR_H
#define TOSSPEAR_H

#include <stddef.h>
#include <stdint.h>

/* what a run is lent */
struct tosspear_sizes {
    uint32_t nodes; /* entries of the node list; no script needs more than 4,096 */
    uint32_t cells;
    uint32_t first; /* entries of the stack of waiting expressions */
    uint32_t second; /* entries of the stack of names and arguments */
    uint32_t allowance; /* steps */
};

enum tosspear_kind {
    TOSSPEAR_ACCEPTED = 0, /* by tosspear_check alone */
    TOSSPEAR_REFUSED = 1,
    TOSSPEAR_ENDED = 2,
    TOSSPEAR_FAULTED = 3,
    TOSSPEAR_FULL = 4, /* the next print does not fit */
    TOSSPEAR_NO_MEMORY = 5,
};

/* what became of a script */
struct tosspear_answer {
    uint32_t kind;
    uint32_t number, place; /* of a refusal or a fault */
    uint32_t basis; /* a fault names a function: if this is not 0 the one of the basis with the number `name`, */
    uint32_t name, name_size; /* else the define or val with the name at this place of the text */
    uint32_t steps, bytes; /* of the whole run; bytes written */
    uint64_t taken, given_back; /* cells */
};

/* reads and checks a script */
void tosspear_check(const uint8_t *text, size_t text_size, struct tosspear_answer *answer);

/* runs a script over an input; what it prints goes to the front of `out`, and the rest of `out` stays as it was */
void tosspear_run(const uint8_t *text, size_t text_size, const uint8_t *input, size_t input_size, uint8_t *out, size_t out_size,
                  const struct tosspear_sizes *sizes, struct tosspear_answer *answer);

#endif
