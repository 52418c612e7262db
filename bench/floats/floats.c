/* Folded constants under each float environment: a line for each, with the constants' bits and how many of them are 01's.
 * Exit status 1 where round to nearest with subnormals kept gives another constant than 01's, or where any environment changes anything but a constant. */
#include "molang.h"
#include <fenv.h>
#include <pmmintrin.h>
#include <stdio.h>
#include <string.h>

/* A constant's value, scale and offset, and what 01 folds them to: one product, then one sum, each rounded to nearest, ties to even, subnormals kept.
 * With u for 2^-23, the unit in the last place of 1.0: */
static const struct { uint32_t raw, scale, offset, folded; } rows[] = {
    { 0x3f800001, 0x3f800001, 0x00000000, 0x3f800002 }, /* (1 + u)^2 is 1 + 2u and a little: 1 + 2u, upward 1 + 3u */
    { 0xbf800001, 0x3f800001, 0x00000000, 0xbf800002 }, /* the same below zero: downward it is -1 - 3u */
    { 0x3f800801, 0x3f800801, 0x00000000, 0x3f801003 }, /* (1 + 2049u)^2 is 1 + 4098u and more than u / 2: 1 + 4099u, downward and toward zero 1 + 4098u */
    { 0x3f800000, 0x40000000, 0x33800000, 0x40000000 }, /* 2 + u / 2 is a quarter of a unit above 2: 2, upward 2 + 2u */
    { 0x00800000, 0x3f000000, 0x00000000, 0x00400000 }, /* half of the least normal number: 0 where results are flushed, and where operands are, in the sum */
    { 0x00400000, 0x40800000, 0x00000000, 0x01000000 }, /* four times a subnormal number: 0 where operands are flushed */
};
enum { ROWS = sizeof rows / sizeof rows[0], CONSTANT = 29 };

static uint32_t workspace[MOLANG_WORDS];
static uint8_t card[MOLANG_IMAGE_ROOM];

static void put32(uint8_t *at, uint32_t n)
{
    for (int i = 0; i < 4; i++)
        at[i] = (uint8_t)(n >> (24 - 8 * i));
}

static uint32_t get32(const uint8_t *at)
{
    return (uint32_t)at[0] << 24 | (uint32_t)at[1] << 16 | (uint32_t)at[2] << 8 | at[3];
}

/* The tree image of one constant (operator 45, payload kind 1). */
static void tree_of(uint8_t tree[27], int row)
{
    memset(tree, 0, 27);
    tree[0] = 1;
    put32(tree + 1, 22);
    put32(tree + 7, 16);
    tree[11] = 45;
    put32(tree + 12, rows[row].scale);
    put32(tree + 16, rows[row].offset);
    tree[20] = 1;
    put32(tree + 21, rows[row].raw);
}

/* Its program image: Const 0, End; one constant; slot 0; nothing else; depths 0 0 0, flags 1, float_loop 1. */
static size_t image_of(uint8_t image[78], uint32_t constant)
{
    static const uint8_t most[] = { 1, 0, 0, 0, 73, 0, 0, 0, 2, 1, 0, 0, 0, 0, 0, 0, 0, 48, 0, 0, 0, 0, 0, 0, 0, 0, 0, 0, 1 };
    memset(image, 0, 78);
    memcpy(image, most, sizeof most);
    put32(image + CONSTANT, constant);
    put32(image + CONSTANT + 4, 1);
    put32(image + CONSTANT + 8, 0x3f800000);
    image[76] = 1;
    image[77] = 1;
    return 78;
}

/* The constants under the environment that is set; the number of faults: any other byte, word or control bit than it should be. */
static int folded(uint32_t constants[ROWS])
{
    int faults = 0;
    for (int row = 0; row < ROWS; row++) {
        uint8_t tree[27], image[78];
        tree_of(tree, row);
        memset(workspace, 0xa5, sizeof workspace);
        memset(card, 0xa5, sizeof card);
        unsigned before = _mm_getcsr() & ~0x3fu;
        uint64_t answer = molang_build(tree, sizeof tree, workspace, MOLANG_WORDS, card, sizeof card);
        faults += (_mm_getcsr() & ~0x3fu) != before;
        constants[row] = get32(card + CONSTANT);
        size_t n = image_of(image, constants[row]);
        faults += molang_refusal_of(answer) != MOLANG_ACCEPTED || molang_length_of(answer) != n || memcmp(card, image, n) != 0;
        for (size_t i = n; i < sizeof card; i++)
            faults += card[i] != 0xa5;
        for (size_t i = 0; i < MOLANG_WORDS; i++)
            faults += workspace[i] != 0;
    }
    return faults;
}

static const struct { const char *name; int rounding, ftz, daz; } environments[] = {
    { "to nearest, subnormals kept", FE_TONEAREST, 0, 0 },
    { "upward", FE_UPWARD, 0, 0 },
    { "downward", FE_DOWNWARD, 0, 0 },
    { "toward zero", FE_TOWARDZERO, 0, 0 },
    { "subnormal results flushed (FTZ)", FE_TONEAREST, 1, 0 },
    { "subnormal operands flushed (DAZ)", FE_TONEAREST, 0, 1 },
};

int main(void)
{
    int wrong = 0;
    for (size_t e = 0; e < sizeof environments / sizeof environments[0]; e++) {
        uint32_t constants[ROWS];
        fesetround(environments[e].rounding);
        _MM_SET_FLUSH_ZERO_MODE(environments[e].ftz ? _MM_FLUSH_ZERO_ON : _MM_FLUSH_ZERO_OFF);
        _MM_SET_DENORMALS_ZERO_MODE(environments[e].daz ? _MM_DENORMALS_ZERO_ON : _MM_DENORMALS_ZERO_OFF);
        int faults = folded(constants);
        fesetenv(FE_DFL_ENV);
        int right = 0;
        printf("%s:", environments[e].name);
        for (int row = 0; row < ROWS; row++) {
            right += constants[row] == rows[row].folded;
            printf(" %08x", (unsigned)constants[row]);
        }
        printf("; %d of %d as 01 folds them, %d faults\n", right, (int)ROWS, faults);
        wrong |= faults != 0 || (e == 0 && right != ROWS);
    }
    return wrong;
}
