/* A tool that holds claims and their proofs as tables and makes the files of them: nu
 * of box, as in examples/nu-of-box; or nu of box and beside it a letter with its
 * negation, the two goals of examples/two-goals; or no goals at all, as in
 * examples/no-goals. Build it from the top of the repository, once
 * crates/gate/out/libgate.a is there:
 *
 *     cc -std=c11 -Iinclude examples/writer/writer.c crates/gate/out/libgate.a -o writer
 *     ./writer claim.bin proof.bin
 *     ./writer claim.bin proof.bin goals
 *     ./writer claim.bin proof.bin none
 *
 * It prints the length of each file, and what the gate says of the two. Without the
 * last word that is
 *
 *     claim: 22 bytes
 *     proof: 38 bytes
 *     check: accept
 *
 * A refused call has "refuse", its number, "at" and its place instead. The exit
 * status is 0 only if the pair was accepted, and then both files are written; 1 if
 * not; 2, and nothing is printed, if an argument is missing or wrong or a file cannot
 * be written. */
#include <errno.h>
#include <stdint.h>
#include <stdio.h>
#include <string.h>

#include "focus_gate.h"

enum { ACCEPTED = 0, REFUSED = 1, NOT_WRITTEN = 2 };

/* All members of these pairs are in focus. */
#define FOCUSED(entry) FOCUS_CODE(entry, 1)

/* What the writer is given. Entries, nodes and codes have room for as many records as
 * there may be, and that is how long they are lent; goal counts, members and roots are
 * lent at just their lengths. A field that a kind or rule does not have is 0. */
struct tables {
    uint8_t form;
    size_t entry_count, goals, members_len, node_count, roots_len;
    focus_entry entries[FOCUS_ENTRIES];
    uint16_t goal_counts[FOCUS_GOALS];
    uint16_t members[3];
    focus_node nodes[FOCUS_NODES];
    uint16_t roots[FOCUS_GOALS];
    uint16_t codes[FOCUS_CODES];
};

/* One goal: its member count is the length of the members' slice, and node 0 is the
 * root, which is not told. */
static const struct tables one_goal = {
    .form = FOCUS_FORM_ONE,
    .entry_count = 3,
    .entries = {
        {FOCUS_KIND_NAME, 2, 0}, /* 0: X, the name of entry 2 */
        {FOCUS_KIND_BOX, 0, 0},  /* 1: box X */
        {FOCUS_KIND_NU, 1, 0},   /* 2: nu X. box X */
    },
    .goals = 1,
    .goal_counts = {1},
    .members_len = 1,
    .members = {2},
    .node_count = 4,
    .nodes = {
        {FOCUS_RULE_D, 0, 1, 0, 0, 1},            /* 0: nu X. box X */
        {FOCUS_RULE_NU, FOCUSED(2), 2, 0, 0, 1},  /* 1: nu X. box X */
        {FOCUS_RULE_BOX, FOCUSED(1), 3, 0, 0, 1}, /* 2: box X */
        {FOCUS_RULE_BACK, 0, 0, 0, 0, 1},         /* 3: nu X. box X, back to node 0 */
    },
    .roots_len = 0,
    /* A code for each node, one behind the other. */
    .codes = {FOCUSED(2), FOCUSED(2), FOCUSED(1), FOCUSED(2)},
};

/* Two goals: the members of the second follow those of the first, and so may the nodes
 * of its tree, or stand among them, as here. */
static const struct tables two_goals = {
    .form = FOCUS_FORM_SEVERAL,
    .entry_count = 5,
    .entries = {
        {FOCUS_KIND_NAME, 2, 0},    /* 0: X, the name of entry 2 */
        {FOCUS_KIND_BOX, 0, 0},     /* 1: box X */
        {FOCUS_KIND_NU, 1, 0},      /* 2: nu X. box X */
        {FOCUS_KIND_LETTER, 0, 0},  /* 3: p */
        {FOCUS_KIND_NEGATED, 0, 0}, /* 4: not p */
    },
    .goals = 2,
    .goal_counts = {1, 2},
    .members_len = 3,
    .members = {2, 3, 4},
    .node_count = 5,
    .nodes = {
        {FOCUS_RULE_D, 0, 1, 0, 0, 1},            /* 0: nu X. box X */
        {FOCUS_RULE_NU, FOCUSED(2), 3, 0, 0, 1},  /* 1: nu X. box X */
        {FOCUS_RULE_AX1, 0, 0, 0, 0, 2},          /* 2: p, not p */
        {FOCUS_RULE_BOX, FOCUSED(1), 4, 0, 0, 1}, /* 3: box X */
        {FOCUS_RULE_BACK, 0, 0, 0, 0, 1},         /* 4: nu X. box X, back to node 0 */
    },
    .roots_len = 2,
    .roots = {0, 2},
    .codes = {FOCUSED(2), FOCUSED(2), FOCUSED(3), FOCUSED(4), FOCUSED(1), FOCUSED(2)},
};

/* No entries, no goals and no nodes: a motion program with no conditions. The slices of
 * entries, nodes and codes are as long as ever. */
static const struct tables no_goals = {.form = FOCUS_FORM_SEVERAL};

static uint8_t claim[FOCUS_GOALS_CLAIM_BYTES];
static uint8_t proof[FOCUS_GOALS_PROOF_BYTES];

static int write_file(const char *path, const uint8_t *bytes, size_t length)
{
    FILE *stream = fopen(path, "wb");
    int whole = stream != NULL && fwrite(bytes, 1, length, stream) == length;
    /* What is still in the stream's buffer is written only now. */
    whole = stream != NULL && fclose(stream) == 0 && whole;
    if (!whole) {
        fprintf(stderr, "%s: %s\n", path, strerror(errno));
    }
    return whole;
}

static void print_refusal(const char *call, uint32_t answer)
{
    printf("%s: refuse %u at %u\n", call, (unsigned)FOCUS_NUMBER(answer),
           (unsigned)FOCUS_PLACE(answer));
}

static void print_length(const char *call, uint64_t answer)
{
    if (FOCUS_WROTE(answer)) {
        printf("%s: %lu bytes\n", call, (unsigned long)answer);
    } else {
        print_refusal(call, (uint32_t)answer);
    }
}

/* Which tables the arguments ask for; none if they are wrong. */
static const struct tables *chosen(int count, char **arguments)
{
    if (count == 3) {
        return &one_goal;
    }
    if (count == 4 && strcmp(arguments[3], "goals") == 0) {
        return &two_goals;
    }
    return count == 4 && strcmp(arguments[3], "none") == 0 ? &no_goals : NULL;
}

int main(int count, char **arguments)
{
    const struct tables *t = chosen(count, arguments);
    if (t == NULL) {
        fprintf(stderr, "usage: writer CLAIM PROOF [goals|none]\n");
        return NOT_WRITTEN;
    }

    uint64_t claim_length =
        focus_write_claim(t->form, t->entries, FOCUS_ENTRIES, t->entry_count, t->goal_counts,
                          t->goals, t->members, t->members_len, claim, FOCUS_GOALS_CLAIM_BYTES);
    uint64_t proof_length =
        focus_write_proof(t->form, t->entries, FOCUS_ENTRIES, t->entry_count, t->goal_counts,
                          t->goals, t->members, t->members_len, t->nodes, FOCUS_NODES,
                          t->node_count, t->roots, t->roots_len, t->codes, FOCUS_CODES, proof,
                          FOCUS_GOALS_PROOF_BYTES);
    if (!FOCUS_WROTE(claim_length) || !FOCUS_WROTE(proof_length)) {
        print_length("claim", claim_length);
        print_length("proof", proof_length);
        return REFUSED;
    }

    /* The writer judges that the files are well formed, not that the rules are kept. */
    uint32_t answer = focus_check(claim, (size_t)claim_length, proof, (size_t)proof_length);
    if (FOCUS_DONE(answer) && !(write_file(arguments[1], claim, (size_t)claim_length) &&
                                write_file(arguments[2], proof, (size_t)proof_length))) {
        return NOT_WRITTEN;
    }
    print_length("claim", claim_length);
    print_length("proof", proof_length);
    if (FOCUS_DONE(answer)) {
        printf("check: accept\n");
        return ACCEPTED;
    }
    print_refusal("check", answer);
    return REFUSED;
}
