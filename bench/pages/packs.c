/* Lists on standard input, one a line: the budget, and then the sizes. A line for each: the refusal, the pages opened, the steps, the pages above the bound,
 * and all 32 pages of molang_pack's answer. */
#include <inttypes.h>
#include <stddef.h>
#include <stdint.h>
#include <stdio.h>
#include <stdlib.h>

#include "molang.h"

#define LONGEST 64

static char line[1 << 10];

int main(void)
{
    while (fgets(line, sizeof line, stdin) != NULL) {
        char *at = line;
        uint16_t sizes[LONGEST];
        size_t count = 0;
        uint64_t budget = strtoull(at, &at, 10);
        while (*at == ' ' && count < LONGEST)
            sizes[count++] = (uint16_t)strtoul(at, &at, 10);
        if (*at != '\n')
            return 1;
        struct molang_packing p = molang_pack(sizes, count, budget);
        printf("%d %d %" PRIu64 " %d", p.refusal, p.opened, p.steps, p.above);
        for (int i = 0; i < MOLANG_IMAGES; i++)
            printf(" %d", p.pages[i]);
        putchar('\n');
    }
    return ferror(stdin) || fflush(stdout) != 0;
}
