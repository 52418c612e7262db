/* Framed tree images on standard input, framed answers of molang_build on standard output: refusal (4 bytes), length (4), program image. */
#include "molang.h"
#include <stdio.h>

static uint8_t tree[1 << 20];
static uint32_t workspace[MOLANG_WORDS];
static uint8_t card[MOLANG_IMAGE_ROOM];

static void put(uint32_t n)
{
    for (int shift = 24; shift >= 0; shift -= 8)
        putchar((int)(n >> shift & 255));
}

int main(void)
{
    uint8_t n[4];
    while (fread(n, 1, 4, stdin) == 4) {
        size_t length = (size_t)n[0] << 24 | (size_t)n[1] << 16 | (size_t)n[2] << 8 | n[3];
        if (length > sizeof tree || fread(tree, 1, length, stdin) != length)
            return 1;
        uint64_t answer = molang_build(tree, length, workspace, MOLANG_WORDS, card, sizeof card);
        put((uint32_t)molang_refusal_of(answer));
        put((uint32_t)molang_length_of(answer));
        fwrite(card, 1, molang_length_of(answer), stdout);
    }
    return ferror(stdin) || fflush(stdout) != 0;
}
