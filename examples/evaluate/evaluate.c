/* Evaluates a claim in a model: one line for each entry, the states where it is
 * true. Build it from the root of the repository, after `rt lib` in crates/gate:
 *
 *     cc -std=c11 -Iinclude examples/evaluate/evaluate.c crates/gate/out/libgate.a -o evaluate
 *     ./evaluate examples/mu-of-box/claim.bin examples/evaluate/circle.bin
 */
#include <stdio.h>

#include "focus_gate.h"

/* More than any good claim or model has, so that a longer file is refused by its
 * start alone. */
#define FILE_BYTES (FOCUS_MODEL_BYTES + 1)

static uint8_t claim[FILE_BYTES];
static uint8_t model[FILE_BYTES];
static focus_entry entries[FOCUS_ENTRIES];
static uint64_t words[FOCUS_WORDS];

/* How many bytes a file has, at most FILE_BYTES; -1 if it cannot be read. */
static long read_file(const char *path, uint8_t *bytes) {
    FILE *file = fopen(path, "rb");
    if (file == NULL) {
        return -1;
    }
    size_t count = fread(bytes, 1, FILE_BYTES, file);
    int failed = ferror(file);
    fclose(file);
    return failed ? -1 : (long)count;
}

/* Diamonds and boxes: their b is an action. */
static int is_modal(const focus_entry *entry) {
    return entry->kind == FOCUS_KIND_DIAMOND || entry->kind == FOCUS_KIND_BOX;
}

/* The states of a word, by rising number. */
static void print_states(uint64_t word) {
    for (int state = 0; state < FOCUS_STATES; state++) {
        if (word >> state & 1) {
            printf(" %d", state);
        }
    }
    printf("\n");
}

int main(int argc, char **argv) {
    if (argc != 3) {
        fprintf(stderr, "usage: evaluate CLAIM MODEL\n");
        return 2;
    }
    long claim_len = read_file(argv[1], claim);
    long model_len = claim_len < 0 ? -1 : read_file(argv[2], model);
    if (model_len < 0) {
        perror(argv[claim_len < 0 ? 1 : 2]);
        return 2;
    }
    uint64_t answer = focus_evaluate(claim, (size_t)claim_len, model, (size_t)model_len,
                                     entries, FOCUS_ENTRIES, words, FOCUS_WORDS);
    if (!FOCUS_EVALUATED(answer)) {
        printf("refuse %u at %u\n", (unsigned)FOCUS_EVALUATE_NUMBER(answer),
               (unsigned)FOCUS_EVALUATE_PLACE(answer));
        return 1;
    }
    /* The entry count stands in the claim's bytes 4 and 5. */
    size_t count = claim[4] + 256u * claim[5];
    for (size_t e = 0; e < count; e++) {
        printf("entry %zu, kind %u", e, entries[e].kind);
        if (is_modal(&entries[e]) && entries[e].b != 0) {
            printf(", action %u", entries[e].b);
        }
        printf(":");
        print_states(words[e]);
    }
    return 0;
}
