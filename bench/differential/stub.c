/* The static library's function with one fault behind it, number FAULT: what bench/differential/faults links in its place. */
#include <stddef.h>
#include <stdint.h>

uint64_t proved_build(const uint8_t *tree, size_t tree_len, uint32_t *ws, size_t words, uint8_t *out, size_t out_len);

static uint64_t calls;
volatile uint8_t seen;

uint64_t molang_build(const uint8_t *tree, size_t tree_len, uint32_t *ws, size_t words, uint8_t *out, size_t out_len) {
    uint64_t answer = proved_build(tree, tree_len, ws, words, out, out_len);
    uint64_t refusal = answer >> 32;
    size_t length = (uint32_t)answer;
    calls++;
    if (calls < 20000)
        return answer;
    /* in each call from here on: reads and writes beyond a buffer */
    if (FAULT == 1) out[out_len] ^= 1;
    if (FAULT == 2) out[-1] ^= 1;
    if (FAULT == 3) seen = tree[tree_len];
    if (FAULT == 4) seen = tree[-1];
    if (FAULT == 5) seen = (uint8_t)ws[words];
    if (FAULT == 6) ws[-1] = 1;
    /* in one call alone: a change that no page sees */
    static int done;
    if (done)
        return answer;
    if (FAULT == 7 && refusal == 0 && length > 0) { done = 1; out[length / 2] ^= 1; }
    if (FAULT == 8 && refusal == 0 && length > 0) { done = 1; out[length - 1] ^= 1; }
    if (FAULT == 9 && refusal == 0) { done = 1; ws[0] = 1; }
    if (FAULT == 10 && refusal == 7) { done = 1; ws[16383] = 1; }
    if (FAULT == 11 && words > 16384) { done = 1; ws[16384] ^= 1; }
    if (FAULT == 12 && refusal == 1 && words > 0) { done = 1; ws[words - 1] ^= 1; }
    if (FAULT == 13 && refusal == 0 && length < out_len) { done = 1; out[length] ^= 1; }
    if (FAULT == 14 && refusal == 9 && out_len > 0) { done = 1; out[0] ^= 1; }
    if (FAULT == 15 && refusal == 0) { done = 1; return answer + 1; }
    if (FAULT == 16 && refusal == 7) { done = 1; return (uint64_t)6 << 32; }
    if (FAULT == 17 && tree_len > 0) { done = 1; ((uint8_t *)tree)[tree_len - 1] ^= 1; }
    if (FAULT == 18 && calls % 2 == 1) { done = 1; out[out_len] ^= 1; }
    if (FAULT == 19 && calls % 2 == 0) { done = 1; out[-1] ^= 1; }
    return answer;
}
