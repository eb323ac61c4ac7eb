/* What the header says of lengths, on the built gate: where one is 0 the pointer may be
 * null, and no call looks further into a claim or proof than FOCUS_FILE_BYTES. */
#define _DEFAULT_SOURCE
#include <stdint.h>
#include <stdio.h>
#include <string.h>
#include <sys/mman.h>

#include "focus_gate.h"

static unsigned long passed, failed;

static void expect(const char *what, uint64_t expected, uint64_t got)
{
    if (got == expected) {
        passed++;
        return;
    }
    failed++;
    printf("%s: expected %llx, got %llx\n", what, (unsigned long long)expected,
           (unsigned long long)got);
}

static uint32_t refusal(uint32_t number, uint32_t place)
{
    return number << 16 | place;
}

/* Of a call that takes or writes. */
static uint64_t late_refusal(uint32_t number, uint32_t place)
{
    return ((uint64_t)1 << 32) + refusal(number, place);
}

/* Of an evaluation. */
static uint64_t wide_refusal(uint32_t number, uint32_t place)
{
    return (uint64_t)number << 32 | place;
}

/* Truth, and the conjunction of truth with truth; truth is the goal, and a node proves it. */
static const focus_entry entries[FOCUS_ENTRIES] = {
    {FOCUS_KIND_TRUE, 0, 0},
    {FOCUS_KIND_AND, 0, 0},
};
static const focus_node nodes[FOCUS_NODES] = {{FOCUS_RULE_AX2, 0, 0, 0, 0, 1}};
static const uint16_t codes[FOCUS_CODES] = {FOCUS_CODE(0, 1)};
static const uint16_t members[] = {0};
static const uint16_t one[] = {1};

/* One state, with no letters and no successors. */
static const uint8_t model[] = {'M', 'D', 'L', '1', 1, 0};

static focus_entry lent_entries[FOCUS_ENTRIES];
static focus_node lent_nodes[FOCUS_NODES];
static uint16_t lent_codes[FOCUS_CODES];
static uint64_t words[FOCUS_WORDS];

struct file {
    uint8_t bytes[FOCUS_GOALS_PROOF_BYTES];
    size_t length;
};

static struct file claim, proof, joined_claim, joined_proof;

/* The pair of the records above; the proof's form has no roots. */
static void write_pair(const void *none)
{
    uint64_t answer = focus_write_claim(FOCUS_FORM_ONE, entries, FOCUS_ENTRIES, 2, one, 1, members,
                                        1, claim.bytes, FOCUS_CLAIM_BYTES);
    expect("a claim", 18, answer);
    claim.length = (size_t)answer;
    answer = focus_write_proof(FOCUS_FORM_ONE, entries, FOCUS_ENTRIES, 2, one, 1, members, 1, nodes,
                               FOCUS_NODES, 1, none, 0, codes, FOCUS_CODES, proof.bytes,
                               FOCUS_PROOF_BYTES);
    expect("a proof, no roots", 11, answer);
    proof.length = (size_t)answer;
    expect("the pair", 0, focus_check(claim.bytes, claim.length, proof.bytes, proof.length));
}

static void check_nothing(const void *none)
{
    expect("check, no claim", refusal(FOCUS_CLAIM_OPENING, 0),
           focus_check(none, 0, proof.bytes, proof.length));
    expect("check, no proof", refusal(FOCUS_PROOF_OPENING, 0),
           focus_check(claim.bytes, claim.length, none, 0));
    expect("check, neither", refusal(FOCUS_CLAIM_OPENING, 0), focus_check(none, 0, none, 0));
}

static void present_nothing(void *none)
{
    focus_gate gate = {FOCUS_PHASE_CLOSED, 0};
    expect("present, closed", refusal(FOCUS_GATE_CLOSED, 0),
           focus_present(&gate, 7, none, 0, none, 0, none, 0, none, 0, none, 0));
    expect("open", 0, focus_open(&gate));
    expect("present, nothing", refusal(FOCUS_SHORT_SLICE, 0),
           focus_present(&gate, 7, none, 0, none, 0, none, 0, none, 0, none, 0));
    expect("present, no entries", refusal(FOCUS_SHORT_SLICE, 0),
           focus_present(&gate, 7, claim.bytes, claim.length, proof.bytes, proof.length, none, 0,
                         lent_nodes, FOCUS_NODES, lent_codes, FOCUS_CODES));
    expect("present, no nodes", refusal(FOCUS_SHORT_SLICE, 0),
           focus_present(&gate, 7, claim.bytes, claim.length, proof.bytes, proof.length,
                         lent_entries, FOCUS_ENTRIES, none, 0, lent_codes, FOCUS_CODES));
    expect("present, no codes", refusal(FOCUS_SHORT_SLICE, 0),
           focus_present(&gate, 7, claim.bytes, claim.length, proof.bytes, proof.length,
                         lent_entries, FOCUS_ENTRIES, lent_nodes, FOCUS_NODES, none, 0));
    expect("present, no claim", refusal(FOCUS_CLAIM_OPENING, 0),
           focus_present(&gate, 7, none, 0, proof.bytes, proof.length, lent_entries, FOCUS_ENTRIES,
                         lent_nodes, FOCUS_NODES, lent_codes, FOCUS_CODES));
    expect("present, no proof", refusal(FOCUS_PROOF_OPENING, 0),
           focus_present(&gate, 7, claim.bytes, claim.length, none, 0, lent_entries, FOCUS_ENTRIES,
                         lent_nodes, FOCUS_NODES, lent_codes, FOCUS_CODES));
    expect("take", late_refusal(FOCUS_NO_PERMIT, 0), focus_take(&gate));
}

static void evaluate_nothing(void *none)
{
    expect("evaluate", 0,
           focus_evaluate(claim.bytes, claim.length, model, sizeof model, lent_entries,
                          FOCUS_ENTRIES, words, FOCUS_WORDS));
    expect("evaluate, nothing", wide_refusal(FOCUS_SHORT_SLICE, 0),
           focus_evaluate(none, 0, none, 0, none, 0, none, 0));
    expect("evaluate, no claim", wide_refusal(FOCUS_CLAIM_OPENING, 0),
           focus_evaluate(none, 0, model, sizeof model, lent_entries, FOCUS_ENTRIES, words,
                          FOCUS_WORDS));
    expect("evaluate, no model", wide_refusal(FOCUS_MODEL_OPENING, 0),
           focus_evaluate(claim.bytes, claim.length, none, 0, lent_entries, FOCUS_ENTRIES, words,
                          FOCUS_WORDS));
    expect("evaluate, no entries", wide_refusal(FOCUS_SHORT_SLICE, 0),
           focus_evaluate(claim.bytes, claim.length, model, sizeof model, none, 0, words,
                          FOCUS_WORDS));
    expect("evaluate, no words", wide_refusal(FOCUS_SHORT_SLICE, 0),
           focus_evaluate(claim.bytes, claim.length, model, sizeof model, lent_entries,
                          FOCUS_ENTRIES, none, 0));
}

static void write_no_claim(void *none)
{
    static uint8_t out[FOCUS_GOALS_CLAIM_BYTES];
    expect("write claim, nothing", late_refusal(FOCUS_SHORT_SLICE, 0),
           focus_write_claim(FOCUS_FORM_ONE, none, 0, 0, none, 0, none, 0, none, 0));
    expect("write claim, no entries", late_refusal(FOCUS_SHORT_SLICE, 0),
           focus_write_claim(FOCUS_FORM_ONE, none, 0, 2, one, 1, members, 1, out, sizeof out));
    /* The count of members, or of goals, stands behind the entries. */
    expect("write claim, no goals in form 1", late_refusal(FOCUS_CLAIM_COUNT, 14),
           focus_write_claim(FOCUS_FORM_ONE, entries, FOCUS_ENTRIES, 2, none, 0, none, 0, out,
                             sizeof out));
    expect("write claim, no members", late_refusal(FOCUS_CLAIM_COUNT, 14),
           focus_write_claim(FOCUS_FORM_SEVERAL, entries, FOCUS_ENTRIES, 2, one, 1, none, 0, out,
                             sizeof out));
    expect("write claim, no output", late_refusal(FOCUS_OUTPUT_SHORT, 0),
           focus_write_claim(FOCUS_FORM_ONE, entries, FOCUS_ENTRIES, 2, one, 1, members, 1, none,
                             0));
    expect("write claim, no goals", 16,
           focus_write_claim(FOCUS_FORM_SEVERAL, entries, FOCUS_ENTRIES, 2, none, 0, none, 0, out,
                             sizeof out));
    expect("write claim, no goals and no output", late_refusal(FOCUS_OUTPUT_SHORT, 0),
           focus_write_claim(FOCUS_FORM_SEVERAL, entries, FOCUS_ENTRIES, 2, none, 0, none, 0, none,
                             0));
}

static void write_no_proof(void *none)
{
    static uint8_t out[FOCUS_GOALS_PROOF_BYTES];
    expect("write proof, nothing", late_refusal(FOCUS_SHORT_SLICE, 0),
           focus_write_proof(FOCUS_FORM_ONE, none, 0, 0, none, 0, none, 0, none, 0, 0, none, 0,
                             none, 0, none, 0));
    expect("write proof, no entries", late_refusal(FOCUS_SHORT_SLICE, 0),
           focus_write_proof(FOCUS_FORM_ONE, none, 0, 2, one, 1, members, 1, nodes, FOCUS_NODES, 1,
                             none, 0, codes, FOCUS_CODES, out, sizeof out));
    expect("write proof, no nodes lent", late_refusal(FOCUS_SHORT_SLICE, 0),
           focus_write_proof(FOCUS_FORM_ONE, entries, FOCUS_ENTRIES, 2, one, 1, members, 1, none, 0,
                             1, none, 0, codes, FOCUS_CODES, out, sizeof out));
    expect("write proof, no codes lent", late_refusal(FOCUS_SHORT_SLICE, 0),
           focus_write_proof(FOCUS_FORM_ONE, entries, FOCUS_ENTRIES, 2, one, 1, members, 1, nodes,
                             FOCUS_NODES, 1, none, 0, none, 0, out, sizeof out));
    expect("write proof, no members", late_refusal(FOCUS_CLAIM_COUNT, 14),
           focus_write_proof(FOCUS_FORM_ONE, entries, FOCUS_ENTRIES, 2, one, 1, none, 0, nodes,
                             FOCUS_NODES, 1, none, 0, codes, FOCUS_CODES, out, sizeof out));
    expect("write proof, no root of a goal", late_refusal(FOCUS_PROOF_MEMBER, 6),
           focus_write_proof(FOCUS_FORM_SEVERAL, entries, FOCUS_ENTRIES, 2, one, 1, members, 1,
                             nodes, FOCUS_NODES, 1, none, 0, codes, FOCUS_CODES, out, sizeof out));
    expect("write proof, no output", late_refusal(FOCUS_OUTPUT_SHORT, 0),
           focus_write_proof(FOCUS_FORM_ONE, entries, FOCUS_ENTRIES, 2, one, 1, members, 1, nodes,
                             FOCUS_NODES, 1, none, 0, codes, FOCUS_CODES, none, 0));
    /* More nodes are laid down by other code. */
    expect("write proof, an orphan", late_refusal(FOCUS_CHILD, 1),
           focus_write_proof(FOCUS_FORM_ONE, entries, FOCUS_ENTRIES, 2, one, 1, members, 1, nodes,
                             FOCUS_NODES, FOCUS_NODES, none, 0, codes, FOCUS_CODES, none, 0));
    expect("write proof, no goals", 6,
           focus_write_proof(FOCUS_FORM_SEVERAL, entries, FOCUS_ENTRIES, 2, none, 0, none, 0, nodes,
                             FOCUS_NODES, 0, none, 0, codes, FOCUS_CODES, out, sizeof out));
}

/* The join of the pair with itself, of which one of six slices is nothing; 6 for none. */
static uint64_t join_without(int left_out, void *none)
{
    const struct file *files[] = {&claim, &proof, &claim, &proof};
    const uint8_t *bytes[4];
    size_t lengths[4];
    for (int i = 0; i < 4; i++) {
        bytes[i] = i == left_out ? none : files[i]->bytes;
        lengths[i] = i == left_out ? 0 : files[i]->length;
    }
    return focus_join(1, bytes[0], lengths[0], bytes[1], lengths[1], bytes[2], lengths[2], bytes[3],
                      lengths[3], left_out == 4 ? none : joined_claim.bytes,
                      left_out == 4 ? 0 : FOCUS_CLAIM_BYTES,
                      left_out == 5 ? none : joined_proof.bytes,
                      left_out == 5 ? 0 : FOCUS_PROOF_BYTES);
}

static void join_nothing(void *none)
{
    expect("join", 20 + ((uint64_t)29 << 16), join_without(6, none));
    expect("the joined pair", 0, focus_check(joined_claim.bytes, 20, joined_proof.bytes, 29));
    expect("join, no first claim", late_refusal(FOCUS_CLAIM_OPENING, 0), join_without(0, none));
    expect("join, no first proof", late_refusal(FOCUS_PROOF_OPENING, 0), join_without(1, none));
    expect("join, no second claim", late_refusal(FOCUS_CLAIM_OPENING, 0), join_without(2, none));
    expect("join, no second proof", late_refusal(FOCUS_PROOF_OPENING, 0), join_without(3, none));
    expect("join, no room for a claim", late_refusal(FOCUS_OUTPUT_SHORT, 0), join_without(4, none));
    expect("join, no room for a proof", late_refusal(FOCUS_OUTPUT_SHORT, 0), join_without(5, none));
    expect("join, nothing", late_refusal(FOCUS_CLAIM_OPENING, 0),
           focus_join(1, none, 0, none, 0, none, 0, none, 0, none, 0, none, 0));
}

/* Each slice of each call in turn. */
static void lend_nothing(void *none)
{
    write_pair(none);
    check_nothing(none);
    present_nothing(none);
    evaluate_nothing(none);
    write_no_claim(none);
    write_no_proof(none);
    join_nothing(none);
}

/* Behind the bytes that are looked at. */
enum { FAR = 1 << 20 };

/* A file of FOCUS_FILE_BYTES + FAR bytes, of which the first FOCUS_FILE_BYTES can be read. */
static uint8_t *far_file(const uint8_t *bytes, size_t length)
{
    uint8_t *file = mmap(NULL, FOCUS_FILE_BYTES + FAR, PROT_READ | PROT_WRITE,
                         MAP_PRIVATE | MAP_ANONYMOUS, -1, 0);
    if (file == MAP_FAILED) {
        return NULL;
    }
    memcpy(file, bytes, length);
    return mprotect(file + FOCUS_FILE_BYTES, FAR, PROT_NONE) == 0 ? file : NULL;
}

static void put(struct file *file, unsigned number)
{
    file->bytes[file->length++] = (uint8_t)(number & 0xff);
    file->bytes[file->length++] = (uint8_t)(number >> 8);
}

static void put_opening(struct file *file, const char *opening, unsigned count)
{
    memcpy(file->bytes, opening, 4);
    file->length = 4;
    put(file, count);
}

/* The longest good claim: a letter and disjunctions, and 16 goals of 24 members, the last ones. */
static void longest_claim(void)
{
    put_opening(&claim, "CLM2", FOCUS_ENTRIES);
    put(&claim, 1 | FOCUS_KIND_LETTER << 8);
    put(&claim, 31);
    for (int i = 1; i < FOCUS_ENTRIES; i++) {
        put(&claim, 3 | FOCUS_KIND_OR << 8);
        put(&claim, 0);
        put(&claim, 0);
    }
    put(&claim, FOCUS_GOALS);
    for (int goal = 0; goal < FOCUS_GOALS; goal++) {
        put(&claim, FOCUS_MEMBERS);
        for (unsigned i = 0; i < FOCUS_MEMBERS; i++) {
            put(&claim, FOCUS_ENTRIES - FOCUS_MEMBERS + i);
        }
    }
}

/* The longest proof that passes by its bytes, with a root for each goal: each node has two
 * children, 0 and 0, which comes too late to matter where bytes follow. */
static void longest_proof(void)
{
    put_opening(&proof, "PRF2", FOCUS_NODES);
    for (unsigned root = 0; root < FOCUS_GOALS; root++) {
        put(&proof, root);
    }
    for (int node = 0; node < FOCUS_NODES; node++) {
        put(&proof, 23 | FOCUS_RULE_AND << 8);
        put(&proof, 0);
        put(&proof, 0);
        put(&proof, 0);
        proof.bytes[proof.length++] = FOCUS_MEMBERS;
        for (unsigned i = 0; i < FOCUS_MEMBERS; i++) {
            put(&proof, FOCUS_CODE(FOCUS_ENTRIES - FOCUS_MEMBERS + i, 1));
        }
    }
}

/* A join reads the pair that is left from before. */
static int join_far(void)
{
    const uint8_t *far_claim = far_file(claim.bytes, claim.length);
    const uint8_t *far_proof = far_file(proof.bytes, proof.length);
    const size_t length = FOCUS_FILE_BYTES + FAR;
    if (far_claim == NULL || far_proof == NULL) {
        perror("lengths");
        return 0;
    }
    expect("join, far claim", late_refusal(FOCUS_CLAIM_LENGTH, (uint32_t)claim.length),
           focus_join(1, claim.bytes, claim.length, proof.bytes, proof.length, far_claim, length,
                      far_proof, length, joined_claim.bytes, FOCUS_CLAIM_BYTES, joined_proof.bytes,
                      FOCUS_PROOF_BYTES));
    expect("join, far proof", late_refusal(FOCUS_PROOF_LENGTH, (uint32_t)proof.length),
           focus_join(1, claim.bytes, claim.length, far_proof, length, claim.bytes, claim.length,
                      proof.bytes, proof.length, joined_claim.bytes, FOCUS_CLAIM_BYTES,
                      joined_proof.bytes, FOCUS_PROOF_BYTES));
    return 1;
}

static int look_far(void)
{
    longest_claim();
    longest_proof();
    expect("the longest proof", FOCUS_GOALS_PROOF_BYTES, proof.length);
    expect("the longest pair", refusal(FOCUS_CHILD, 0),
           focus_check(claim.bytes, claim.length, proof.bytes, proof.length));
    const uint8_t *far_claim = far_file(claim.bytes, claim.length);
    const uint8_t *far_proof = far_file(proof.bytes, proof.length);
    if (far_claim == NULL || far_proof == NULL) {
        perror("lengths");
        return 0;
    }
    /* As long as it can be read, and longer. */
    for (size_t length = FOCUS_FILE_BYTES; length <= FOCUS_FILE_BYTES + FAR; length += FAR) {
        const uint32_t claim_end = (uint32_t)claim.length;
        const uint32_t bad_proof = refusal(FOCUS_PROOF_LENGTH, (uint32_t)proof.length);
        focus_gate gate = {FOCUS_PHASE_OPEN, 0};
        expect("check, far claim", refusal(FOCUS_CLAIM_LENGTH, claim_end),
               focus_check(far_claim, length, proof.bytes, proof.length));
        expect("check, far proof", bad_proof,
               focus_check(claim.bytes, claim.length, far_proof, length));
        expect("present, far proof", bad_proof,
               focus_present(&gate, 7, claim.bytes, claim.length, far_proof, length, lent_entries,
                             FOCUS_ENTRIES, lent_nodes, FOCUS_NODES, lent_codes, FOCUS_CODES));
        expect("evaluate, far claim", wide_refusal(FOCUS_CLAIM_LENGTH, claim_end),
               focus_evaluate(far_claim, length, model, sizeof model, lent_entries, FOCUS_ENTRIES,
                              words, FOCUS_WORDS));
    }
    return 1;
}

int main(void)
{
    lend_nothing(NULL);
    /* The same of a pointer that is not null: nothing comes of its being one. */
    lend_nothing(words);
    int looked = join_far() && look_far();
    printf("lengths: %lu passed, %lu failed\n", passed, failed);
    return looked && failed == 0 ? 0 : 1;
}
