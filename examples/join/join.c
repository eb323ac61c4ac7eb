/* Joins the proofs of two classes, each of which has proved one half of a condition:
 * beside the letter p one has nu X. box X, the other not p. Both claims have the same
 * table, in which entry 5 is the whole, nu X. box X and not p. From the top of the
 * repository, once crates/gate/out/libgate.a is there:
 *
 *     cc -std=c11 -Iinclude examples/join/join.c crates/gate/out/libgate.a -o join
 *     ./join 5 examples/first-half/claim.bin examples/first-half/proof.bin \
 *              examples/second-half/claim.bin examples/second-half/proof.bin \
 *              claim.bin proof.bin
 *
 * It prints the length of each file that it makes, and what the gate says of the two:
 *
 *     claim: 38 bytes
 *     proof: 69 bytes
 *     check: accept
 *
 * A refused join has the one line "join: refuse", its number, "at" and its place. The exit
 * status is 0 only if the joined pair was accepted, and then both files are written, as in
 * examples/both-halves; 1 if not; 2, and nothing is printed, if an argument is missing or
 * wrong or a file cannot be read or written. */
#include <errno.h>
#include <stdint.h>
#include <stdio.h>
#include <string.h>

#include "focus_gate.h"

enum { ACCEPTED = 0, REFUSED = 1, NOT_TRIED = 2 };

/* Of a longer file the rest need not be read. */
struct file {
    uint8_t bytes[FOCUS_FILE_BYTES];
    size_t length;
};

/* The claim and proof of one half, then those of the other, as the join judges them. */
static struct file halves[4];

/* Long enough for every join. */
static uint8_t claim[FOCUS_CLAIM_BYTES];
static uint8_t proof[FOCUS_PROOF_BYTES];

static int read_file(struct file *file, const char *path)
{
    FILE *stream = fopen(path, "rb");
    if (stream == NULL) {
        fprintf(stderr, "%s: %s\n", path, strerror(errno));
        return 0;
    }
    file->length = fread(file->bytes, 1, FOCUS_FILE_BYTES, stream);
    /* A read that fails is not the end of the file: a part must not be judged. */
    int whole = !ferror(stream);
    if (!whole) {
        fprintf(stderr, "%s: %s\n", path, strerror(errno));
    }
    fclose(stream);
    return whole;
}

static int write_file(const char *path, const uint8_t *bytes, size_t length)
{
    FILE *stream = fopen(path, "wb");
    int whole = stream != NULL && fwrite(bytes, 1, length, stream) == length;
    /* What is still in the stream's buffer is written only now. */
    whole = stream != NULL && fclose(stream) == 0 && whole;
    if (!whole) {
        fprintf(stderr, "%s: %s\n", path, strerror(errno));
    }
    return whole;
}

/* A decimal number of 16 bits, with nothing around it: the join would take 65,541 for 5. */
static int read_entry(const char *text, uint16_t *entry)
{
    uint32_t number = 0;
    size_t length = strlen(text);
    if (length == 0 || length > 5 || strspn(text, "0123456789") != length) {
        return 0;
    }
    for (size_t i = 0; i < length; i++) {
        number = number * 10 + (uint32_t)(text[i] - '0');
    }
    *entry = (uint16_t)number;
    return number <= UINT16_MAX;
}

static int print_refusal(const char *call, uint32_t answer)
{
    printf("%s: refuse %u at %u\n", call, (unsigned)FOCUS_NUMBER(answer),
           (unsigned)FOCUS_PLACE(answer));
    return REFUSED;
}

int main(int count, char **arguments)
{
    uint16_t entry;
    if (count != 8 || !read_entry(arguments[1], &entry)) {
        fprintf(stderr, "usage: join ENTRY CLAIM PROOF CLAIM PROOF NEW-CLAIM NEW-PROOF\n");
        return NOT_TRIED;
    }
    for (int i = 0; i < 4; i++) {
        if (!read_file(&halves[i], arguments[2 + i])) {
            return NOT_TRIED;
        }
    }

    uint64_t joined = focus_join(entry, halves[0].bytes, halves[0].length, halves[1].bytes,
                                 halves[1].length, halves[2].bytes, halves[2].length,
                                 halves[3].bytes, halves[3].length, claim, FOCUS_CLAIM_BYTES,
                                 proof, FOCUS_PROOF_BYTES);
    if (!FOCUS_JOINED(joined)) {
        return print_refusal("join", (uint32_t)joined);
    }

    size_t claim_length = FOCUS_JOINED_CLAIM(joined);
    size_t proof_length = FOCUS_JOINED_PROOF(joined);
    /* What was joined is accepted: that the gate says so itself is shown for the reader. */
    uint32_t answer = focus_check(claim, claim_length, proof, proof_length);
    if (!FOCUS_DONE(answer)) {
        return print_refusal("check", answer);
    }
    if (!write_file(arguments[6], claim, claim_length) ||
        !write_file(arguments[7], proof, proof_length)) {
        return NOT_TRIED;
    }
    printf("claim: %lu bytes\n", (unsigned long)claim_length);
    printf("proof: %lu bytes\n", (unsigned long)proof_length);
    printf("check: accept\n");
    return ACCEPTED;
}
