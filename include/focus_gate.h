/* The Focus proof gate for a loader written in C or C++, from C99 and C++98 on: link
 * crates/gate/out/libgate.a.
 *
 * An answer is 0 for done or accepted, else refusal x 65,536 + place; focus_take,
 * focus_evaluate, focus_join and the two calls that write a file from records answer
 * otherwise, in 64 bits. For every call:
 *  - Each pointer leads to as many elements as its length says, aligned for their type.
 *    Where the length is 0 it may be null; the pointer to a gate never is.
 *  - What the call may write overlaps nothing else that it is lent.
 *  - Until it has answered nobody else writes anything that it was lent, the files it
 *    reads too: so one call at a time on a gate.
 *  - The thread has FOCUS_STACK_BYTES of stack left.
 * The gate keeps no pointer and has no memory of its own: calls that are lent different
 * gates and slices may run side by side. */
#ifndef FOCUS_GATE_H
#define FOCUS_GATE_H

#include <stddef.h>
#include <stdint.h>

#ifdef __cplusplus
extern "C" {
#endif

/* The least lengths of lent slices; a shorter one earns FOCUS_SHORT_SLICE. */
#define FOCUS_ENTRIES 256
#define FOCUS_NODES 1024
#define FOCUS_CODES 24576
#define FOCUS_WORDS 256

/* The most goals of a claim, members of a goal and codes of a node, states of a model. */
#define FOCUS_GOALS 16
#define FOCUS_MEMBERS 24
#define FOCUS_STATES 64

/* Output slices of these lengths are long enough for every claim and every proof of
 * FOCUS_FORM_ONE, so that none earns FOCUS_OUTPUT_SHORT. */
#define FOCUS_CLAIM_BYTES 1592
#define FOCUS_PROOF_BYTES 58374

/* The same of FOCUS_FORM_SEVERAL. FOCUS_PROOF_BYTES are enough for its proofs too: the longest
 * that pass by bytes alone, before the trees are judged, have 58,406. */
#define FOCUS_GOALS_CLAIM_BYTES 2344
#define FOCUS_GOALS_PROOF_BYTES 58406

/* No call looks further into a claim or proof: what a longer one earns, its first bytes
 * earn by themselves, so the rest need not be read. */
#define FOCUS_FILE_BYTES 65536

/* No model that is evaluated is longer: what a longer one earns lies within these
 * bytes and the first that follows. */
#define FOCUS_MODEL_BYTES 67013

/* No call needs more stack. */
#define FOCUS_STACK_BYTES 131072

/* The phases of a gate. Any other number reads as closed. */
enum {
    FOCUS_PHASE_CLOSED = 0,
    FOCUS_PHASE_OPEN = 1,
    FOCUS_PHASE_HOLDING = 2
};

/* The forms of a claim and its proof. The writer is told one; a reader goes by the
 * openings, which must be of one form. */
enum {
    FOCUS_FORM_ONE = 1,    /* CLM1 and PRF1: one list of members, and node 0 is the root */
    FOCUS_FORM_SEVERAL = 2 /* CLM2 and PRF2: 0 to 16 goals, and a tree with its root for each */
};

/* The kinds of entries, with the fields that each has. */
enum {
    FOCUS_KIND_FALSE = 0,
    FOCUS_KIND_TRUE = 1,
    FOCUS_KIND_LETTER = 2,  /* a: the letter, 0 to 31 */
    FOCUS_KIND_NEGATED = 3, /* a: the letter that is negated */
    FOCUS_KIND_OR = 4,      /* a, b: entries below this one */
    FOCUS_KIND_AND = 5,     /* a, b: likewise */
    FOCUS_KIND_DIAMOND = 6, /* a: an entry below; b: the action, 0 to 15 */
    FOCUS_KIND_BOX = 7,     /* a, b: likewise */
    FOCUS_KIND_MU = 8,      /* a: the body, an entry below */
    FOCUS_KIND_NU = 9,      /* a: likewise */
    FOCUS_KIND_NAME = 10    /* a: its mu or nu, an entry above */
};

/* The rules of nodes, with the fields that each has beside its codes. The principal is a
 * code, the others are nodes. */
enum {
    FOCUS_RULE_AX1 = 0,  /* a letter and its negation */
    FOCUS_RULE_AX2 = 1,  /* true */
    FOCUS_RULE_OR = 2,   /* principal, first */
    FOCUS_RULE_AND = 3,  /* principal, first, second */
    FOCUS_RULE_BOX = 4,  /* principal, first */
    FOCUS_RULE_MU = 5,   /* principal, first */
    FOCUS_RULE_NU = 6,   /* principal, first */
    FOCUS_RULE_W = 7,    /* principal, which is dropped; first */
    FOCUS_RULE_F = 8,    /* principal, which comes into focus; first */
    FOCUS_RULE_U = 9,    /* principal, which leaves focus; first */
    FOCUS_RULE_D = 10,   /* first */
    FOCUS_RULE_BACK = 11 /* back, a node of FOCUS_RULE_D */
};

/* The code of an entry, 0 to 255, in focus if the second is not 0. Of a larger entry it is
 * no code that a proof may have, and from 32,768 on it is cut to 16 bits. */
#define FOCUS_CODE(entry, focus) \
    ((uint16_t)(2u * (unsigned)(entry) + ((focus) != 0 ? 1u : 0u)))

/* Refusals, with the place that comes with each in brackets. "Offset" counts the
 * bytes of that file from 0. */
enum {
    FOCUS_SHORT_SLICE = 1,    /* a lent slice under its least length (0) */

    FOCUS_CLAIM_OPENING = 10, /* wrong or short opening, or no form (0) */
    FOCUS_CLAIM_LENGTH = 11,  /* ends early (its length), or bytes follow (offset) */
    FOCUS_CLAIM_COUNT = 12,   /* a count out of range (its offset) */
    FOCUS_CLAIM_MAP = 13,     /* map or kind unfit (offset of the map) */
    FOCUS_CLAIM_MEMBER = 14,  /* not rising, out of range, or a name (its offset) */
    FOCUS_BOUNDS = 20,        /* a field out of its bounds, or a name of no fixpoint (entry) */
    FOCUS_NAME_BELOW = 21,    /* a free name that is not above (entry) */
    FOCUS_ALTERNATION = 22,   /* a mu with a free nu, or a nu with a free mu (entry) */
    FOCUS_UNGUARDED = 23,     /* its own name without a box or diamond between (entry) */

    FOCUS_PROOF_OPENING = 30, /* wrong or short opening, or of another form than the claim (0) */
    FOCUS_PROOF_LENGTH = 31,  /* ends early (its length), or bytes follow (offset) */
    FOCUS_PROOF_COUNT = 32,   /* a count out of range (its offset) */
    FOCUS_PROOF_MAP = 33,     /* map or rule unfit (offset of the map) */
    FOCUS_PROOF_MEMBER = 34,  /* code or root not rising, out of range, or a name (its offset) */
    FOCUS_CHILD = 35,         /* a bad child number, a root's too (parent), or an orphan (itself) */
    FOCUS_ROOT = 36,          /* a root is not its goal in focus (the root) */
    FOCUS_RULE = 37,          /* a rule not kept (node) */
    FOCUS_BACK_LINK = 38,     /* bad back link or other sequent (leaf) */
    FOCUS_LOOP = 39,          /* bad loop path: no focus, rule 8, or no rule 4 (leaf) */

    FOCUS_GATE_CLOSED = 50,   /* presenting, taking or closing on a closed gate (0) */
    FOCUS_PERMIT_HELD = 51,   /* presenting while a permit is held (0) */
    FOCUS_NO_PERMIT = 52,     /* taking while open and none is held (0) */
    FOCUS_NOT_CLOSED = 53,    /* opening a gate that is not closed (0) */

    FOCUS_MODEL_OPENING = 60, /* wrong or short opening (0) */
    FOCUS_MODEL_LENGTH = 61,  /* ends early (its length), or bytes follow (offset) */
    FOCUS_MODEL_COUNT = 62,   /* a count out of range (its offset) */
    FOCUS_MODEL_MAP = 63,     /* map unfit, or a zero mask, action map or count (offset of the map) */
    FOCUS_MODEL_MEMBER = 64,  /* a successor not rising or out of range (its offset) */

    FOCUS_OUTPUT_SHORT = 70,  /* an output slice shorter than the file (0) */
    FOCUS_ACTION = 71,        /* an action above 15, or a 0 written out in B (entry) */
    FOCUS_GOAL_COUNT = 72,    /* a goal count over 16 (its offset) */
    FOCUS_JOIN_UNFIT = 73,    /* tables differ, no such entry, or no fit (the entry) */
    FOCUS_JOIN_NODES = 74     /* more than 1,024 nodes would result (0) */
};

/* An answer as it was given. A variable with fewer bits may have lost a refusal, so it does
 * not compile, and neither does what is no integer. What was cut before and is wide again
 * is not seen. */
#define FOCUS_WHOLE(answer, bits) \
    ((uint64_t)((answer) | 0) + \
     0 * sizeof(void (*)(char answer_needs_##bits##_bits[8 * sizeof(answer) < (bits) ? -1 : 1])))

/* Whether a call that answers in 32 bits has done or accepted, and the two parts of the
 * refusal if not. */
#define FOCUS_DONE(answer) (FOCUS_WHOLE(answer, 32) == 0)
#define FOCUS_NUMBER(answer) ((uint32_t)FOCUS_WHOLE(answer, 32) >> 16)
#define FOCUS_PLACE(answer) ((uint32_t)FOCUS_WHOLE(answer, 32) & 0xffff)

/* The same of what focus_evaluate answered: a place in a model may need more than
 * 16 bits. */
#define FOCUS_EVALUATED(answer) (FOCUS_WHOLE(answer, 64) == 0)
#define FOCUS_EVALUATE_NUMBER(answer) ((uint32_t)(FOCUS_WHOLE(answer, 64) >> 32))
#define FOCUS_EVALUATE_PLACE(answer) ((uint32_t)FOCUS_WHOLE(answer, 64))

/* What focus_take answered: a tag, or a refusal whose parts FOCUS_NUMBER and
 * FOCUS_PLACE give. Every 32-bit tag is a tag, 0 too. */
#define FOCUS_TOOK(answer) (FOCUS_WHOLE(answer, 64) >> 32 == 0)

/* What a call that writes a file answered: its length, or a refusal likewise. */
#define FOCUS_WROTE(answer) (FOCUS_WHOLE(answer, 64) >> 32 == 0)

/* What focus_join answered: the lengths of both files, or a refusal likewise. */
#define FOCUS_JOINED(answer) (FOCUS_WHOLE(answer, 64) >> 32 == 0)
#define FOCUS_JOINED_CLAIM(answer) ((size_t)(FOCUS_WHOLE(answer, 64) & 0xffff))
#define FOCUS_JOINED_PROOF(answer) ((size_t)(FOCUS_WHOLE(answer, 64) >> 16))

/* A gate, lent to each call. One with all bytes zero is closed, as a gate starts.
 * The tag means something only in FOCUS_PHASE_HOLDING. */
typedef struct {
    uint8_t phase;
    uint32_t tag;
} focus_gate;

/* A decoded entry of a claim. A field that its kind does not have is 0; b of a box
 * or diamond is its action. */
typedef struct {
    uint8_t kind;
    uint16_t a, b;
} focus_entry;

/* A decoded node of a proof. A field that its rule does not have is 0; its count
 * codes follow those of the nodes before it. */
typedef struct {
    uint8_t rule;
    uint16_t principal, first, second, back;
    uint8_t count;
} focus_node;

/* Opens a closed gate, with no permit and tag 0.
 * Else 53, and the gate is as it was. */
uint32_t focus_open(focus_gate *gate);

/* Closes an open gate or one that holds a permit, which is dropped: tag 0.
 * Else 50, and the gate is as it was. */
uint32_t focus_close(focus_gate *gate);

/* Answers the held tag and leaves the gate open, with no permit and tag 0.
 * Else 2^32 + (50 or 52) x 65,536, and the gate is as it was. */
uint64_t focus_take(focus_gate *gate);

/* Judges a claim and proof of either form on an open gate: 0, and it holds the tag; else the gate is
 * as it was. With 0 and 35 to 39 each slice begins with its decoding, which has neither goals nor
 * roots; beyond, and else, nothing is written. A wider tag arrives cut to 32 bits. */
uint32_t focus_present(focus_gate *gate, uint32_t tag,
                       const uint8_t *claim, size_t claim_len,
                       const uint8_t *proof, size_t proof_len,
                       focus_entry *entries, size_t entries_len,
                       focus_node *nodes, size_t nodes_len,
                       uint16_t *codes, size_t codes_len);

/* Evaluates a claim in a model: 0, and word i has bit s where entry i is true at state s.
 * With 0 the entries are written too; beyond the last one, and else, nothing is written.
 * Else refusal x 2^32 + place, the claim's refusals too. */
uint64_t focus_evaluate(const uint8_t *claim, size_t claim_len,
                        const uint8_t *model, size_t model_len,
                        focus_entry *entries, size_t entries_len,
                        uint64_t *words, size_t words_len);

/* Judges a claim and proof of either form without any gate: 0 for accepted, each goal of the claim.
 * A claim without goals is accepted with a proof of no nodes, and nothing is promised of it. The
 * call writes nothing. */
uint32_t focus_check(const uint8_t *claim, size_t claim_len,
                     const uint8_t *proof, size_t proof_len);

/* Writes the claim of that form, of the first entry_count entries and of all members to the start of
 * out and answers its length. The members of the goals stand one after another, and goal_counts has
 * how many each goal has: in FOCUS_FORM_ONE one number, members_len. Else 2^32 + refusal x 65,536 +
 * place, and nothing is written: 1; 10 for any other form; 12 to 14, 20 to 23, 71 and 72 as that
 * claim would earn them, 12 at the goal count (where FOCUS_FORM_ONE has its member count) if
 * goal_counts do not add up to members_len; 70. A field that the entry's kind does not have must be 0,
 * else 13; action 0 is never written out. Nothing is read beyond the counts, and nothing written
 * beyond the file. A wider form arrives cut to 8 bits, 257 as 1: take one of FOCUS_FORM_*. */
uint64_t focus_write_claim(uint8_t form,
                           const focus_entry *entries, size_t entries_len, size_t entry_count,
                           const uint16_t *goal_counts, size_t goals,
                           const uint16_t *members, size_t members_len,
                           uint8_t *out, size_t out_len);

/* Writes the proof of the first node_count nodes likewise, each node's codes behind those of the
 * nodes before it; roots has the root of each goal's tree, and none in FOCUS_FORM_ONE. The claim's
 * records are judged first, then 32 to 35 as the proof would earn them, 34 at 6 if there are other
 * than so many roots; a field that the node's rule does not have must be 0, else 33. */
uint64_t focus_write_proof(uint8_t form,
                           const focus_entry *entries, size_t entries_len, size_t entry_count,
                           const uint16_t *goal_counts, size_t goals,
                           const uint16_t *members, size_t members_len,
                           const focus_node *nodes, size_t nodes_len, size_t node_count,
                           const uint16_t *roots, size_t roots_len,
                           const uint16_t *codes, size_t codes_len,
                           uint8_t *out, size_t out_len);

/* Joins two accepted proofs at an entry "A and B" of the table that both claims have: claim1 is the
 * rest with A, claim2 the rest with B, by formula. Writes the claim of the rest and the entry to the
 * start of claim_out and its proof to the start of proof_out, and answers the length of the claim +
 * 65,536 x that of the proof; focus_check accepts the two. The rest is every member of claim1, under
 * its entry number, whose formula claim2 has too; the nodes are a new root, those of proof1 and those
 * of proof2, renumbered. Else 2^32 + refusal x 65,536 + place, and nothing is written: what claim1 and
 * proof1 earn from focus_check, then what claim2 and proof2 earn, in FOCUS_FORM_ONE alone (any other
 * opening is 10 or 30); 73 at the entry; 74; 70 if either slice is short. FOCUS_CLAIM_BYTES and
 * FOCUS_PROOF_BYTES are enough. Bytes beyond the files are untouched. A wider entry arrives cut to 16
 * bits, 65,541 as 5: compare it with FOCUS_ENTRIES first. */
uint64_t focus_join(uint16_t entry,
                    const uint8_t *claim1, size_t claim1_len,
                    const uint8_t *proof1, size_t proof1_len,
                    const uint8_t *claim2, size_t claim2_len,
                    const uint8_t *proof2, size_t proof2_len,
                    uint8_t *claim_out, size_t claim_out_len,
                    uint8_t *proof_out, size_t proof_out_len);

/* The gate reads and writes these structs at fixed places: a compiler that packs
 * or pads them otherwise must not get through, whatever its language has for asserts. */
#define FOCUS_PLACED(type, field, place) \
    typedef char type##_##field##_at_##place[offsetof(type, field) == (place) ? 1 : -1]
#define FOCUS_SIZED(type, size) typedef char type##_of_size_##size[sizeof(type) == (size) ? 1 : -1]
FOCUS_SIZED(focus_gate, 8);
FOCUS_PLACED(focus_gate, phase, 0);
FOCUS_PLACED(focus_gate, tag, 4);
FOCUS_SIZED(focus_entry, 6);
FOCUS_PLACED(focus_entry, kind, 0);
FOCUS_PLACED(focus_entry, a, 2);
FOCUS_PLACED(focus_entry, b, 4);
FOCUS_SIZED(focus_node, 12);
FOCUS_PLACED(focus_node, rule, 0);
FOCUS_PLACED(focus_node, principal, 2);
FOCUS_PLACED(focus_node, first, 4);
FOCUS_PLACED(focus_node, second, 6);
FOCUS_PLACED(focus_node, back, 8);
FOCUS_PLACED(focus_node, count, 10);
#undef FOCUS_PLACED
#undef FOCUS_SIZED

#ifdef __cplusplus
}
#endif

#endif
