/* The header's macros used as they should be: without a warning, and with the right
 * results. Prints what is wrong. */
#include <stdio.h>

#include "focus_gate.h"

/* 2^32 + 52 at 0, as taking answers it: in 32 bits it would be a tag. */
static const uint64_t none_held = ((uint64_t)1 << 32) + ((uint64_t)FOCUS_NO_PERMIT << 16);

/* 60 at 0 and 61 at 67,012, as an evaluation answers them: in 32 bits the first would be 0. */
static const uint64_t no_model = (uint64_t)FOCUS_MODEL_OPENING << 32;
static const uint64_t cut_model = ((uint64_t)FOCUS_MODEL_LENGTH << 32) + 67012;

/* The lengths of a claim and a proof, and 73 at 65,535. */
static const uint64_t joined = 1592 + ((uint64_t)58374 << 16);
static const uint64_t unjoined =
    ((uint64_t)1 << 32) + ((uint64_t)FOCUS_JOIN_UNFIT << 16) + 65535;

static const uint32_t done = 0;
static const uint32_t cut_claim = ((uint32_t)FOCUS_CLAIM_LENGTH << 16) + 65535;
static const int64_t signed_tag = 7;

/* Records are filled by names alone, and codes before the program runs. */
static const focus_entry entries[] = {
    {FOCUS_KIND_NAME, 2, 0},
    {FOCUS_KIND_BOX, 0, 15},
    {FOCUS_KIND_NU, 1, 0},
};
static const focus_node leaf = {FOCUS_RULE_BACK, 0, 0, 0, 65535, 1};
static const uint16_t codes[] = {FOCUS_CODE(0, 0), FOCUS_CODE(0, 1), FOCUS_CODE(2, 1),
                                 FOCUS_CODE(254 + 1, 1 + 1)};

static int asked;

static uint64_t once(uint64_t answer)
{
    asked++;
    return answer;
}

static int wrong;

static void expect(int right, const char *what)
{
    if (!right) {
        printf("not so: %s\n", what);
        wrong = 1;
    }
}
#define EXPECT(condition) expect((condition) ? 1 : 0, #condition)

static void answers_of_32_bits(void)
{
    EXPECT(FOCUS_DONE(done));
    EXPECT(!FOCUS_DONE(cut_claim));
    EXPECT(!FOCUS_DONE((uint32_t)FOCUS_CLAIM_OPENING << 16));
    EXPECT(FOCUS_NUMBER(cut_claim) == FOCUS_CLAIM_LENGTH);
    EXPECT(FOCUS_PLACE(cut_claim) == 65535);
    /* Wider ones are whole. */
    EXPECT(!FOCUS_DONE(no_model));
    EXPECT(FOCUS_NUMBER(none_held) == FOCUS_NO_PERMIT);
    EXPECT(FOCUS_PLACE(none_held) == 0);
    EXPECT(FOCUS_NUMBER(unjoined) == FOCUS_JOIN_UNFIT);
    EXPECT(FOCUS_PLACE(unjoined) == 65535);
}

static void answers_of_64_bits(void)
{
    EXPECT(FOCUS_TOOK((uint64_t)0));
    EXPECT(FOCUS_TOOK((uint64_t)UINT32_MAX));
    EXPECT(FOCUS_TOOK(signed_tag));
    EXPECT(!FOCUS_TOOK(none_held));
    EXPECT(!FOCUS_TOOK(signed_tag | (int64_t)none_held));
    EXPECT(FOCUS_WROTE((uint64_t)FOCUS_GOALS_PROOF_BYTES));
    EXPECT(!FOCUS_WROTE(unjoined));
    EXPECT(FOCUS_JOINED(joined));
    EXPECT(!FOCUS_JOINED(unjoined));
    EXPECT(FOCUS_JOINED_CLAIM(joined) == 1592);
    EXPECT(FOCUS_JOINED_PROOF(joined) == 58374);
    EXPECT(FOCUS_EVALUATED((uint64_t)0));
    EXPECT(!FOCUS_EVALUATED(no_model));
    EXPECT(!FOCUS_EVALUATED(cut_model));
    EXPECT(FOCUS_EVALUATE_NUMBER(no_model) == FOCUS_MODEL_OPENING);
    EXPECT(FOCUS_EVALUATE_PLACE(no_model) == 0);
    EXPECT(FOCUS_EVALUATE_NUMBER(cut_model) == FOCUS_MODEL_LENGTH);
    EXPECT(FOCUS_EVALUATE_PLACE(cut_model) == 67012);
    /* A call may stand in a macro: it is made once. */
    EXPECT(!FOCUS_TOOK(once(none_held)));
    EXPECT(asked == 1);
}

static void records(void)
{
    EXPECT(entries[0].kind == 10 && entries[1].kind == 7 && entries[2].kind == 9);
    EXPECT(leaf.rule == 11 && leaf.back == 65535);
    EXPECT(codes[0] == 0 && codes[1] == 1 && codes[2] == 5 && codes[3] == 511);
    uint16_t entry = 200;
    EXPECT(FOCUS_CODE(entry, FOCUS_TOOK(none_held)) == 400);
    EXPECT(FOCUS_CODE(entry, -1) == 401);
    EXPECT(sizeof FOCUS_CODE(entry, 1) == sizeof codes[0]);
}

int main(void)
{
    answers_of_32_bits();
    answers_of_64_bits();
    records();
    return wrong;
}
