/* The tree image on standard input as a program image on standard output. Exit status: 0, or the refusal's number, or 10 where reading or writing failed. */
#include "molang.h"
#include <stdio.h>

static uint8_t tree[MOLANG_TREE_MOST + 1];
static uint32_t workspace[MOLANG_WORDS];
static uint8_t card[MOLANG_IMAGE_ROOM];

static int failed(const char *what)
{
    perror(what);
    return 10;
}

int main(void)
{
    size_t length = fread(tree, 1, sizeof tree, stdin);
    if (ferror(stdin))
        return failed("standard input");

    uint64_t answer = molang_build(tree, length, workspace, MOLANG_WORDS, card, sizeof card);
    enum molang_refusal refusal = molang_refusal_of(answer);
    if (refusal != MOLANG_ACCEPTED) {
        fprintf(stderr, "refused %d: %s\n", (int)refusal, molang_reason(refusal));
        return (int)refusal;
    }
    if (fwrite(card, 1, molang_length_of(answer), stdout) != molang_length_of(answer) || fflush(stdout) != 0)
        return failed("standard output");
    return 0;
}
