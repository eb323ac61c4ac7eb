/* Runs the gate's calls over corpora of records of these kinds, little-endian:
 *   checks  [u32 claim length][claim][u32 proof length][proof][u32 answer]
 *   evals   [u32 claim length][claim][u32 model length][model][u64 answer]
 *           [u32 n][n x u64 word]
 *   narrow  evals with a u32 answer, refusal x 65,536 + place
 *   writes  [u32 form][u32 entry count][u32 n][n x entry][u32 n][n x u16 goal count]
 *           [u32 n][n x u16 member][u32 node count][u32 n][n x node]
 *           [u32 n][n x u16 root][u32 n][n x u16 code]
 *           [u64 claim answer][u32 n][claim][u64 proof answer][u32 n][proof]
 *   joins   [u32 n][claim][u32 n][proof] of either half, [u32 entry][u64 answer]
 *           [u32 n][claim][u32 n][proof]
 * Each file and each lent slice stands in a block of exactly its length, the
 * slices of the least lengths that are allowed, so that a read or write past
 * either end leaves the block and is seen by the tool that watches. What is lent
 * is not filled first: a tool that knows which bytes were set then also sees
 * whether the gate looks at what stood there, and whether it leaves a part of a
 * decoding unwritten. So it is with the records for the writer beyond their counts:
 * whoever looks at them looks at what nobody has set. Goal counts, members and roots
 * stand in blocks of just their lengths. */
#include <stddef.h>
#include <stdint.h>
#include <stdio.h>
#include <stdlib.h>
#include <string.h>

#include "focus_gate.h"

enum { SHOWN = 10 };

struct corpus {
    const char *path;
    uint8_t *bytes;
    size_t length;
    size_t at;
};

/* A file of a record: its place in the corpus and a copy in a block of its own. */
struct file {
    const uint8_t *original;
    uint8_t *bytes;
    size_t length;
};

struct tally {
    unsigned long passed;
    unsigned long failed;
    int wide; /* whether the answers are those of evaluations */
};

/* All that decodings and evaluations have left in lent slices, added up. */
static uint64_t left;

static void give_up(const char *what, const char *path)
{
    fprintf(stderr, "%s: %s\n", path, what);
    exit(2);
}

/* Where there is nothing to lend the pointer is null. */
static void *block(size_t count, size_t size)
{
    if (count == 0) {
        return NULL;
    }
    void *bytes = malloc(count * size);
    if (bytes == NULL) {
        give_up("no memory", "driver");
    }
    return bytes;
}

static struct corpus read_corpus(const char *path)
{
    FILE *file = fopen(path, "rb");
    if (file == NULL) {
        give_up("cannot be opened", path);
    }
    if (fseek(file, 0, SEEK_END) != 0) {
        give_up("cannot be measured", path);
    }
    long size = ftell(file);
    if (size <= 0) {
        give_up("no records", path);
    }
    rewind(file);
    struct corpus corpus = {path, block((size_t)size, 1), (size_t)size, 0};
    if (fread(corpus.bytes, 1, corpus.length, file) != corpus.length) {
        give_up("cannot be read", path);
    }
    fclose(file);
    return corpus;
}

static const uint8_t *take_bytes(struct corpus *corpus, size_t count)
{
    if (corpus->length - corpus->at < count) {
        give_up("a record is cut short", corpus->path);
    }
    corpus->at += count;
    return corpus->bytes + corpus->at - count;
}

static uint64_t take_number(struct corpus *corpus, size_t width)
{
    const uint8_t *bytes = take_bytes(corpus, width);
    uint64_t number = 0;
    for (size_t i = 0; i < width; i++) {
        number |= (uint64_t)bytes[i] << (8 * i);
    }
    return number;
}

static struct file take_file(struct corpus *corpus)
{
    size_t length = (size_t)take_number(corpus, 4);
    struct file file = {take_bytes(corpus, length), block(length, 1), length};
    if (length != 0) {
        memcpy(file.bytes, file.original, length);
    }
    return file;
}

/* Whether the call has left the file alone; its block is given back. */
static int drop_file(struct file file)
{
    int kept = file.length == 0 || memcmp(file.bytes, file.original, file.length) == 0;
    free(file.bytes);
    return kept;
}

static void show_answer(uint64_t answer, int wide)
{
    if (wide) {
        printf("%u at %u", (unsigned)FOCUS_EVALUATE_NUMBER(answer),
               (unsigned)FOCUS_EVALUATE_PLACE(answer));
    } else {
        printf("%u at %u", (unsigned)FOCUS_NUMBER(answer), (unsigned)FOCUS_PLACE(answer));
    }
}

/* The length of a written file shows as 0 at that length, the lengths of joined ones as the
 * proof's at the claim's. */
static void show_answers(const char *call, unsigned long record, uint64_t expected, uint64_t got,
                         int wide)
{
    printf("%s, record %lu: expected ", call, record);
    show_answer(expected, wide);
    printf(", got ");
    show_answer(got, wide);
    printf("\n");
}

static void count(struct tally *tally, const char *call, uint64_t expected, uint64_t got, int kept)
{
    unsigned long record = tally->passed + tally->failed;
    if (got == expected && kept) {
        tally->passed++;
        return;
    }
    if (tally->failed < SHOWN) {
        show_answers(call, record, expected, got, tally->wide);
        if (!kept) {
            printf("  something that was lent is not as it must be\n");
        }
    }
    tally->failed++;
}

/* The entries that a good claim has, or the nodes of a good proof. */
static size_t counted(const uint8_t *file)
{
    return (size_t)file[4] | (size_t)file[5] << 8;
}

static void read_entries(const focus_entry *entries, size_t length)
{
    for (size_t i = 0; i < length; i++) {
        left += (uint64_t)entries[i].kind + entries[i].a + entries[i].b;
    }
}

static void read_nodes(const focus_node *nodes, size_t length, const uint16_t *codes)
{
    size_t code = 0;
    for (size_t i = 0; i < length; i++) {
        const focus_node *node = &nodes[i];
        left += (uint64_t)node->rule + node->principal + node->first + node->second + node->back;
        for (size_t end = code + node->count; code < end; code++) {
            left += codes[code];
        }
    }
}

static int holds(const focus_gate *gate, uint8_t phase, uint32_t tag)
{
    return gate->phase == phase && gate->tag == tag;
}

static uint32_t lend_and_present(focus_gate *gate, uint32_t tag, struct file claim,
                                 struct file proof, size_t entry_count, size_t node_count,
                                 size_t code_count)
{
    focus_entry *entries = block(entry_count, sizeof *entries);
    focus_node *nodes = block(node_count, sizeof *nodes);
    uint16_t *codes = block(code_count, sizeof *codes);
    uint32_t answer = focus_present(gate, tag, claim.bytes, claim.length, proof.bytes,
                                    proof.length, entries, entry_count, nodes, node_count, codes,
                                    code_count);
    uint32_t number = FOCUS_NUMBER(answer);
    if (answer == 0 || (FOCUS_CHILD <= number && number <= FOCUS_LOOP)) {
        read_entries(entries, counted(claim.bytes));
        read_nodes(nodes, counted(proof.bytes), codes);
    }
    free(entries);
    free(nodes);
    free(codes);
    return answer;
}

/* A gate from closed to closed, with one presentation; was its state right all
 * along, and did a permit come back exactly if the pair was accepted. */
static int present(struct file claim, struct file proof, uint32_t tag, uint32_t *answer)
{
    focus_gate *gate = block(1, sizeof *gate);
    gate->phase = FOCUS_PHASE_CLOSED;
    gate->tag = 0;
    int right = focus_open(gate) == 0 && holds(gate, FOCUS_PHASE_OPEN, 0);
    *answer = lend_and_present(gate, tag, claim, proof, FOCUS_ENTRIES, FOCUS_NODES, FOCUS_CODES);
    uint64_t none = ((uint64_t)1 << 32) + ((uint64_t)FOCUS_NO_PERMIT << 16);
    if (*answer == 0) {
        right = right && holds(gate, FOCUS_PHASE_HOLDING, tag) && focus_take(gate) == tag;
    } else {
        right = right && holds(gate, FOCUS_PHASE_OPEN, 0) && focus_take(gate) == none;
    }
    right = right && holds(gate, FOCUS_PHASE_OPEN, 0);
    right = right && focus_close(gate) == 0 && holds(gate, FOCUS_PHASE_CLOSED, 0);
    free(gate);
    return right;
}

static struct tally run_checks(const char *path)
{
    struct corpus corpus = read_corpus(path);
    struct tally checked = {0, 0, 0};
    struct tally presented = {0, 0, 0};
    while (corpus.at < corpus.length) {
        struct file claim = take_file(&corpus);
        struct file proof = take_file(&corpus);
        uint32_t expected = (uint32_t)take_number(&corpus, 4);
        uint32_t got = focus_check(claim.bytes, claim.length, proof.bytes, proof.length);
        count(&checked, "check", expected, got, 1);

        uint32_t tag = (uint32_t)(presented.passed * 2654435761u);
        int right = present(claim, proof, tag, &got);
        int kept = drop_file(claim) & drop_file(proof);
        count(&presented, "present", expected, got, right && kept);
    }
    free(corpus.bytes);
    printf("check: %lu passed, %lu failed\n", checked.passed, checked.failed);
    printf("present: %lu passed, %lu failed\n", presented.passed, presented.failed);
    return (struct tally){checked.passed + presented.passed, checked.failed + presented.failed, 0};
}

/* What an evaluation answers for a refusal. */
static uint64_t evaluate_refusal(uint32_t number, uint32_t place)
{
    return (uint64_t)number << 32 | place;
}

/* The answer of an evaluation, of 8 bytes or of 4. */
static uint64_t take_evaluate_answer(struct corpus *corpus, size_t width)
{
    uint64_t answer = take_number(corpus, width);
    return width == 8 ? answer : evaluate_refusal(FOCUS_NUMBER(answer), FOCUS_PLACE(answer));
}

static struct tally run_evals(const char *path, size_t width)
{
    struct corpus corpus = read_corpus(path);
    struct tally evaluated = {0, 0, 1};
    while (corpus.at < corpus.length) {
        struct file claim = take_file(&corpus);
        struct file model = take_file(&corpus);
        uint64_t expected = take_evaluate_answer(&corpus, width);
        size_t length = (size_t)take_number(&corpus, 4);
        focus_entry *entries = block(FOCUS_ENTRIES, sizeof *entries);
        uint64_t *words = block(FOCUS_WORDS, sizeof *words);
        uint64_t got = focus_evaluate(claim.bytes, claim.length, model.bytes, model.length, entries,
                                      FOCUS_ENTRIES, words, FOCUS_WORDS);
        int right = 1;
        if (got == 0 && expected == 0) {
            read_entries(entries, counted(claim.bytes));
        }
        for (size_t i = 0; i < length; i++) {
            uint64_t word = take_number(&corpus, 8);
            right = right && got == 0 && words[i] == word;
        }
        free(entries);
        free(words);
        int kept = drop_file(claim) & drop_file(model);
        count(&evaluated, "evaluate", expected, got, right && kept);
    }
    free(corpus.bytes);
    printf("evaluate: %lu passed, %lu failed\n", evaluated.passed, evaluated.failed);
    return evaluated;
}

/* Two-byte numbers in a block of just their length. */
struct list {
    uint16_t *numbers;
    size_t length;
};

/* What is given to the writer. The blocks of entries, nodes and codes are of the least
 * lengths; beyond the counts nothing is set. */
struct records {
    uint8_t form;
    size_t entry_count, node_count;
    focus_entry *entries;
    struct list goal_counts, members, roots;
    focus_node *nodes;
    uint16_t *codes;
};

/* What a call must answer and write. */
struct written {
    uint64_t answer;
    const uint8_t *file;
    size_t length;
};

static size_t least(size_t one, size_t other)
{
    return one < other ? one : other;
}

static struct list new_list(size_t length)
{
    struct list list = {block(length, sizeof *list.numbers), length};
    return list;
}

static struct list take_list(struct corpus *corpus)
{
    struct list list = new_list((size_t)take_number(corpus, 4));
    for (size_t i = 0; i < list.length; i++) {
        list.numbers[i] = (uint16_t)take_number(corpus, 2);
    }
    return list;
}

static focus_entry take_entry(struct corpus *corpus)
{
    focus_entry entry;
    entry.kind = (uint8_t)take_number(corpus, 1);
    entry.a = (uint16_t)take_number(corpus, 2);
    entry.b = (uint16_t)take_number(corpus, 2);
    return entry;
}

static focus_node take_node(struct corpus *corpus)
{
    focus_node node;
    node.rule = (uint8_t)take_number(corpus, 1);
    node.principal = (uint16_t)take_number(corpus, 2);
    node.first = (uint16_t)take_number(corpus, 2);
    node.second = (uint16_t)take_number(corpus, 2);
    node.back = (uint16_t)take_number(corpus, 2);
    node.count = (uint8_t)take_number(corpus, 1);
    return node;
}

/* The first of the listed entries, as many as the count says, are set. */
static void take_entries(struct corpus *corpus, struct records *records)
{
    records->entry_count = (size_t)take_number(corpus, 4);
    records->entries = block(FOCUS_ENTRIES, sizeof *records->entries);
    size_t listed = (size_t)take_number(corpus, 4);
    for (size_t i = 0; i < listed; i++) {
        focus_entry entry = take_entry(corpus);
        if (i < records->entry_count && i < FOCUS_ENTRIES) {
            records->entries[i] = entry;
        }
    }
}

/* The nodes likewise; how many codes they have is answered. */
static size_t take_nodes(struct corpus *corpus, struct records *records)
{
    records->node_count = (size_t)take_number(corpus, 4);
    records->nodes = block(FOCUS_NODES, sizeof *records->nodes);
    size_t listed = (size_t)take_number(corpus, 4);
    size_t codes = 0;
    for (size_t i = 0; i < listed; i++) {
        focus_node node = take_node(corpus);
        if (i < records->node_count && i < FOCUS_NODES) {
            records->nodes[i] = node;
            codes += node.count;
        }
    }
    return codes;
}

static void take_codes(struct corpus *corpus, struct records *records, size_t counted_codes)
{
    records->codes = block(FOCUS_CODES, sizeof *records->codes);
    size_t listed = (size_t)take_number(corpus, 4);
    for (size_t i = 0; i < listed; i++) {
        uint16_t code = (uint16_t)take_number(corpus, 2);
        if (i < least(counted_codes, FOCUS_CODES)) {
            records->codes[i] = code;
        }
    }
}

static struct records take_records(struct corpus *corpus)
{
    struct records records;
    uint64_t form = take_number(corpus, 4);
    if (form > UINT8_MAX) {
        give_up("a form of more than a byte", corpus->path);
    }
    records.form = (uint8_t)form;
    take_entries(corpus, &records);
    records.goal_counts = take_list(corpus);
    records.members = take_list(corpus);
    size_t codes = take_nodes(corpus, &records);
    records.roots = take_list(corpus);
    take_codes(corpus, &records, codes);
    return records;
}

static void drop_records(struct records records)
{
    free(records.entries);
    free(records.goal_counts.numbers);
    free(records.members.numbers);
    free(records.nodes);
    free(records.roots.numbers);
    free(records.codes);
}

static struct written take_written(struct corpus *corpus)
{
    struct written written;
    written.answer = take_number(corpus, 8);
    written.length = (size_t)take_number(corpus, 4);
    written.file = take_bytes(corpus, written.length);
    return written;
}

enum call { WRITING_CLAIM, WRITING_PROOF };

/* The lengths are those of entries, nodes and codes. */
static uint64_t lend_and_write(enum call call, const struct records *records,
                               const size_t *lengths, uint8_t *out, size_t out_len)
{
    const struct list *goals = &records->goal_counts;
    const struct list *members = &records->members;
    const struct list *roots = &records->roots;
    if (call == WRITING_CLAIM) {
        return focus_write_claim(records->form, records->entries, lengths[0], records->entry_count,
                                 goals->numbers, goals->length, members->numbers, members->length,
                                 out, out_len);
    }
    return focus_write_proof(records->form, records->entries, lengths[0], records->entry_count,
                             goals->numbers, goals->length, members->numbers, members->length,
                             records->nodes, lengths[1], records->node_count, roots->numbers,
                             roots->length, records->codes, lengths[2], out, out_len);
}

static uint64_t written_refusal(uint32_t number)
{
    return ((uint64_t)1 << 32) + ((uint64_t)number << 16);
}

/* An output block of just the file's length, and one that is a byte shorter: 70. For
 * a refusal, no output block at all. */
static void write_one(enum call call, const struct records *records, struct written expected,
                      struct tally *wrote, struct tally *refused)
{
    static const size_t lengths[] = {FOCUS_ENTRIES, FOCUS_NODES, FOCUS_CODES};
    const char *name = call == WRITING_CLAIM ? "write claim" : "write proof";
    uint8_t *out = block(expected.length, 1);
    uint64_t got = lend_and_write(call, records, lengths, out, expected.length);
    int right = got != expected.answer || expected.length == 0 ||
                memcmp(out, expected.file, expected.length) == 0;
    count(wrote, name, expected.answer, got, right);
    free(out);
    if (expected.length == 0) {
        return;
    }
    out = block(expected.length - 1, 1);
    got = lend_and_write(call, records, lengths, out, expected.length - 1);
    count(refused, name, written_refusal(FOCUS_OUTPUT_SHORT), got, 1);
    free(out);
}

static struct tally run_writes(const char *path)
{
    struct corpus corpus = read_corpus(path);
    struct tally wrote = {0, 0, 0};
    struct tally refused = {0, 0, 0};
    while (corpus.at < corpus.length) {
        struct records records = take_records(&corpus);
        struct written claim = take_written(&corpus);
        struct written proof = take_written(&corpus);
        write_one(WRITING_CLAIM, &records, claim, &wrote, &refused);
        write_one(WRITING_PROOF, &records, proof, &wrote, &refused);
        drop_records(records);
    }
    free(corpus.bytes);
    printf("write: %lu passed, %lu failed\n", wrote.passed, wrote.failed);
    printf("write, output a byte short: %lu passed, %lu failed\n", refused.passed, refused.failed);
    return (struct tally){wrote.passed + refused.passed, wrote.failed + refused.failed, 0};
}

/* Two claims with their proofs, in the order in which they are judged, and the entry that
 * they are to be joined at. */
struct halves {
    struct file files[4];
    uint16_t entry;
};

/* What a join must answer and write. */
struct joined {
    uint64_t answer;
    size_t claim_length, proof_length;
    const uint8_t *claim, *proof;
};

static struct halves take_halves(struct corpus *corpus)
{
    struct halves halves;
    for (size_t i = 0; i < 4; i++) {
        halves.files[i] = take_file(corpus);
    }
    uint64_t entry = take_number(corpus, 4);
    if (entry > UINT16_MAX) {
        give_up("an entry of more than two bytes", corpus->path);
    }
    halves.entry = (uint16_t)entry;
    return halves;
}

static int drop_halves(struct halves halves)
{
    int kept = 1;
    for (size_t i = 0; i < 4; i++) {
        kept &= drop_file(halves.files[i]);
    }
    return kept;
}

static struct joined take_joined(struct corpus *corpus)
{
    struct joined joined;
    joined.answer = take_number(corpus, 8);
    joined.claim_length = (size_t)take_number(corpus, 4);
    joined.claim = take_bytes(corpus, joined.claim_length);
    joined.proof_length = (size_t)take_number(corpus, 4);
    joined.proof = take_bytes(corpus, joined.proof_length);
    return joined;
}

static int same_bytes(const uint8_t *one, const uint8_t *other, size_t length)
{
    return length == 0 || memcmp(one, other, length) == 0;
}

/* The answer of a join in output blocks of these lengths; if that is the right one and no
 * refusal, whether the files stand there. */
static uint64_t lend_and_join(const struct halves *halves, size_t claim_length,
                              size_t proof_length, const struct joined *expected, int *right)
{
    const struct file *files = halves->files;
    uint8_t *claim = block(claim_length, 1);
    uint8_t *proof = block(proof_length, 1);
    uint64_t got = focus_join(halves->entry, files[0].bytes, files[0].length, files[1].bytes,
                              files[1].length, files[2].bytes, files[2].length, files[3].bytes,
                              files[3].length, claim, claim_length, proof, proof_length);
    *right = got != expected->answer || !FOCUS_JOINED(got) ||
             (FOCUS_JOINED_CLAIM(got) == expected->claim_length &&
              FOCUS_JOINED_PROOF(got) == expected->proof_length &&
              same_bytes(claim, expected->claim, expected->claim_length) &&
              same_bytes(proof, expected->proof, expected->proof_length));
    free(claim);
    free(proof);
    return got;
}

/* Either block a byte short in turn, and no blocks at all. */
static void join_short(const struct halves *halves, const struct joined *joined,
                       struct tally *refused)
{
    const size_t claim = joined->claim_length;
    const size_t proof = joined->proof_length;
    const size_t rooms[][2] = {{claim - 1, proof}, {claim, proof - 1}, {0, 0}};
    const struct joined short_output = {.answer = written_refusal(FOCUS_OUTPUT_SHORT)};
    for (size_t i = 0; i < sizeof rooms / sizeof rooms[0]; i++) {
        int right;
        uint64_t got = lend_and_join(halves, rooms[i][0], rooms[i][1], &short_output, &right);
        count(refused, "join, output short", short_output.answer, got, right);
    }
}

/* In output blocks of just the lengths; for a refusal in none at all. */
static struct tally run_joins(const char *path)
{
    struct corpus corpus = read_corpus(path);
    struct tally done = {0, 0, 0};
    struct tally refused = {0, 0, 0};
    while (corpus.at < corpus.length) {
        struct halves halves = take_halves(&corpus);
        struct joined joined = take_joined(&corpus);
        int right;
        uint64_t got = lend_and_join(&halves, joined.claim_length, joined.proof_length, &joined,
                                     &right);
        if (FOCUS_JOINED(joined.answer)) {
            join_short(&halves, &joined, &refused);
        }
        int kept = drop_halves(halves);
        count(&done, "join", joined.answer, got, right && kept);
    }
    free(corpus.bytes);
    printf("join: %lu passed, %lu failed\n", done.passed, done.failed);
    printf("join, output short: %lu passed, %lu failed\n", refused.passed, refused.failed);
    return (struct tally){done.passed + refused.passed, done.failed + refused.failed, 0};
}

/* Lengths of entries, nodes and codes of which one at least is too short. */
static const size_t short_records[][3] = {
    {FOCUS_ENTRIES - 1, FOCUS_NODES, FOCUS_CODES},
    {FOCUS_ENTRIES, FOCUS_NODES - 1, FOCUS_CODES},
    {FOCUS_ENTRIES, FOCUS_NODES, FOCUS_CODES - 1},
    {0, 0, 0},
};
enum { SHORT_RECORDS = sizeof short_records / sizeof short_records[0] };

/* The writer over records of which none is set, in each form and in none; with one of
 * each that counts, or with nothing. */
static struct tally write_short(void)
{
    struct tally refused = {0, 0, 0};
    for (size_t i = 0; i < 8 * SHORT_RECORDS; i++) {
        const size_t *lengths = short_records[i / 8];
        struct records records = {0};
        records.form = (uint8_t)(i % 4);
        size_t counted_records = i / 4 % 2;
        records.entry_count = counted_records;
        records.node_count = counted_records;
        records.entries = block(lengths[0], sizeof *records.entries);
        records.goal_counts = new_list(2 * counted_records);
        records.members = new_list(2 * counted_records);
        records.nodes = block(lengths[1], sizeof *records.nodes);
        records.roots = new_list(2 * counted_records);
        records.codes = block(lengths[2], sizeof *records.codes);
        size_t out_len = FOCUS_GOALS_PROOF_BYTES;
        uint8_t *out = block(out_len, 1);
        uint64_t expected = written_refusal(FOCUS_SHORT_SLICE);
        uint64_t got = lend_and_write(WRITING_PROOF, &records, lengths, out, out_len);
        count(&refused, "write proof, short", expected, got, 1);
        if (lengths[0] < FOCUS_ENTRIES) {
            got = lend_and_write(WRITING_CLAIM, &records, lengths, out, out_len);
            count(&refused, "write claim, short", expected, got, 1);
        }
        free(out);
        drop_records(records);
    }
    return refused;
}

/* Slices that are too short, none at all included: nothing may be touched. The
 * files are the first of these corpora. */
static struct tally present_short(const char *checks)
{
    struct tally refused = {0, 0, 0};
    struct corpus corpus = read_corpus(checks);
    struct file claim = take_file(&corpus);
    struct file proof = take_file(&corpus);
    uint32_t expected = (uint32_t)FOCUS_SHORT_SLICE << 16;
    for (size_t i = 0; i < SHORT_RECORDS; i++) {
        const size_t *lengths = short_records[i];
        focus_gate gate = {FOCUS_PHASE_OPEN, 9};
        uint32_t got = lend_and_present(&gate, 7, claim, proof, lengths[0], lengths[1], lengths[2]);
        count(&refused, "present, short", expected, got, holds(&gate, FOCUS_PHASE_OPEN, 9));
    }
    drop_file(claim);
    drop_file(proof);
    free(corpus.bytes);
    return refused;
}

static struct tally evaluate_short(const char *evals)
{
    static const size_t meanings[][2] = {
        {FOCUS_ENTRIES - 1, FOCUS_WORDS},
        {FOCUS_ENTRIES, FOCUS_WORDS - 1},
        {0, 0},
    };
    struct tally refused = {0, 0, 1};
    struct corpus corpus = read_corpus(evals);
    struct file claim = take_file(&corpus);
    struct file model = take_file(&corpus);
    for (size_t i = 0; i < sizeof meanings / sizeof meanings[0]; i++) {
        const size_t *lengths = meanings[i];
        focus_entry *entries = block(lengths[0], sizeof *entries);
        uint64_t *words = block(lengths[1], sizeof *words);
        uint64_t got = focus_evaluate(claim.bytes, claim.length, model.bytes, model.length, entries,
                                      lengths[0], words, lengths[1]);
        count(&refused, "evaluate, short", evaluate_refusal(FOCUS_SHORT_SLICE, 0), got, 1);
        free(entries);
        free(words);
    }
    drop_file(claim);
    drop_file(model);
    free(corpus.bytes);
    return refused;
}

static struct tally show_short(struct tally refused)
{
    printf("short slices: %lu passed, %lu failed\n", refused.passed, refused.failed);
    return refused;
}

/* A run of nothing is not good. */
static int good(struct tally run)
{
    return run.failed == 0 && run.passed != 0;
}

/* The calls that take records of that kind, over a corpus of them; with its first
 * record, or with none set, also in slices that are too short. */
static int run(const char *kind, const char *path)
{
    if (strcmp(kind, "checks") == 0) {
        return good(show_short(present_short(path))) & good(run_checks(path));
    }
    if (strcmp(kind, "writes") == 0) {
        return good(show_short(write_short())) & good(run_writes(path));
    }
    if (strcmp(kind, "joins") == 0) {
        return good(run_joins(path));
    }
    int narrow = strcmp(kind, "narrow") == 0;
    if (!narrow && strcmp(kind, "evals") != 0) {
        give_up("no kind of records", kind);
    }
    return good(show_short(evaluate_short(path))) & good(run_evals(path, narrow ? 4 : 8));
}

int main(int arguments_count, char **arguments)
{
    if (arguments_count < 3 || arguments_count % 2 == 0) {
        fprintf(stderr, "usage: driver (checks|evals|narrow|writes|joins CORPUS)...\n");
        return 2;
    }
    int all_good = 1;
    for (int i = 1; i < arguments_count; i += 2) {
        all_good &= run(arguments[i], arguments[i + 1]);
    }
    /* Printing the sum is what makes it depend on every byte that was left. */
    printf("sum of what was left in lent slices: %llu\n", (unsigned long long)left);
    return all_good ? 0 : 1;
}
