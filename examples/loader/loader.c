/* A loader as a mount might have it. It opens a gate, presents a claim and proof
 * under a tag, takes the permit and closes; motors would start only with the
 * permit in hand. From the top of the repository, once crates/gate/out/libgate.a
 * is there:
 *
 *     cc -std=c11 -Iinclude examples/loader/loader.c crates/gate/out/libgate.a -o loader
 *     ./loader 7 examples/nu-of-box/claim.bin examples/nu-of-box/proof.bin
 *
 * It prints a line for each call:
 *
 *     open: done
 *     present: accept
 *     take: tag 7
 *     close: done
 *
 * A refused call has "refuse", its number, "at" and its place instead. The exit
 * status is 0 only if the permit came back with the tag; 1 if not; 2, and no call
 * is made, if an argument is wrong or a file cannot be read. */
#include <errno.h>
#include <stdint.h>
#include <stdio.h>
#include <stdlib.h>
#include <string.h>

#include "focus_gate.h"

enum { GRANTED = 0, DENIED = 1, NOT_TRIED = 2 };

/* Of a longer file the rest need not be read. */
struct file {
    uint8_t bytes[FOCUS_FILE_BYTES];
    size_t length;
};

/* A mount has no heap to spare and small stacks, so what is lent lives here. */
static struct file claim;
static struct file proof;
static focus_entry entries[FOCUS_ENTRIES];
static focus_node nodes[FOCUS_NODES];
static uint16_t codes[FOCUS_CODES];

static int read_file(struct file *file, const char *path)
{
    FILE *stream = fopen(path, "rb");
    if (stream == NULL) {
        fprintf(stderr, "%s: %s\n", path, strerror(errno));
        return 0;
    }
    file->length = fread(file->bytes, 1, FOCUS_FILE_BYTES, stream);
    /* A read that fails is not the end of the file: a part must not be judged. */
    int whole = !ferror(stream);
    if (!whole) {
        fprintf(stderr, "%s: %s\n", path, strerror(errno));
    }
    fclose(stream);
    return whole;
}

/* A decimal number of 32 bits, with nothing around it. */
static int read_tag(const char *text, uint32_t *tag)
{
    uint64_t number = 0;
    size_t length = strlen(text);
    if (length == 0 || length > 10 || strspn(text, "0123456789") != length) {
        return 0;
    }
    for (size_t i = 0; i < length; i++) {
        number = number * 10 + (uint64_t)(text[i] - '0');
    }
    *tag = (uint32_t)number;
    return number <= UINT32_MAX;
}

static void print_refusal(const char *call, uint32_t answer)
{
    printf("%s: refuse %u at %u\n", call, (unsigned)FOCUS_NUMBER(answer),
           (unsigned)FOCUS_PLACE(answer));
}

static void print_answer(const char *call, const char *good, uint32_t answer)
{
    if (FOCUS_DONE(answer)) {
        printf("%s: %s\n", call, good);
    } else {
        print_refusal(call, answer);
    }
}

int main(int count, char **arguments)
{
    uint32_t tag;
    if (count != 4 || !read_tag(arguments[1], &tag)) {
        fprintf(stderr, "usage: loader TAG CLAIM PROOF\n");
        return NOT_TRIED;
    }
    if (!read_file(&claim, arguments[2]) || !read_file(&proof, arguments[3])) {
        return NOT_TRIED;
    }

    focus_gate gate = {FOCUS_PHASE_CLOSED, 0};
    print_answer("open", "done", focus_open(&gate));
    print_answer("present", "accept",
                 focus_present(&gate, tag, claim.bytes, claim.length, proof.bytes, proof.length,
                               entries, FOCUS_ENTRIES, nodes, FOCUS_NODES, codes, FOCUS_CODES));

    /* Only the permit counts, whatever was answered before it. */
    uint64_t taken = focus_take(&gate);
    if (FOCUS_TOOK(taken)) {
        printf("take: tag %lu\n", (unsigned long)taken);
    } else {
        print_refusal("take", (uint32_t)taken);
    }
    print_answer("close", "done", focus_close(&gate));
    return taken == tag ? GRANTED : DENIED;
}
